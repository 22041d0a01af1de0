"""Builds the wheel for pip (PEP 517), so that `pip install` needs no other package, and no network.

If liblupinanon.so.0 is in the folder that LUPINANON_LIB names, or in the package, as in a release archive, the wheel has it,
and is for Linux on x86-64 alone.
"""

import base64
import hashlib
import os
import tomllib
import zipfile
from pathlib import Path

HERE = Path(__file__).parent
LIBRARY = "liblupinanon.so.0"


def project():
    return tomllib.loads((HERE / "pyproject.toml").read_text(encoding="utf-8"))["project"]


def library():
    """Returns the path of the library that the wheel gets, or None."""
    folders = [os.environ.get("LUPINANON_LIB"), HERE / "lupinanon"]
    found = [Path(folder) / LIBRARY for folder in folders if folder]
    return next((path for path in found if path.exists()), None)


def metadata(about):
    return (
        f"Metadata-Version: 2.1\nName: {about['name']}\nVersion: {about['version']}\nSummary: {about['description']}\n"
        f"License: {about['license']}\nRequires-Python: {about['requires-python']}\n"
    ).encode()


def record(files, path):
    """Returns the list of the files with their sums, itself without one."""
    lines = []
    for name, contents in files.items():
        digest = base64.urlsafe_b64encode(hashlib.sha256(contents).digest()).rstrip(b"=").decode()
        lines.append(f"{name},sha256={digest},{len(contents)}\n")
    return "".join([*lines, f"{path},,\n"]).encode()


def build_wheel(wheel_directory, config_settings=None, metadata_directory=None):
    about = project()
    files = {f"lupinanon/{path.name}": path.read_bytes() for path in sorted((HERE / "lupinanon").glob("*.py"))}
    tag = "py3-none-any"
    if found := library():
        files[f"lupinanon/{LIBRARY}"] = found.read_bytes()
        tag = "py3-none-linux_x86_64"
    release = f"{about['name']}-{about['version']}"
    info = f"{release}.dist-info"
    is_pure = str(tag.endswith("any")).lower()
    files[f"{info}/METADATA"] = metadata(about)
    files[f"{info}/WHEEL"] = f"Wheel-Version: 1.0\nGenerator: wheels\nRoot-Is-Purelib: {is_pure}\nTag: {tag}\n".encode()
    files[f"{info}/RECORD"] = record(files, f"{info}/RECORD")
    name = f"{release}-{tag}.whl"
    with zipfile.ZipFile(Path(wheel_directory) / name, "w", zipfile.ZIP_DEFLATED) as wheel:
        for path, contents in files.items():
            wheel.writestr(path, contents)
    return name
