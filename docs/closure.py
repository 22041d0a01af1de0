"""Prints what a reader has to believe, with its lines, and checks where it is.

It starts from the clauses of `generate` in crates/smith_component/src/generation.rt, and of the view of a component, and follows
the imports of the definitions that they cite. It checks that the first three groups are in the specs/ folders of crates that have no
builder and no maker of types, except for the view itself, that these folders import nothing else, and that each definition that the
contract cites is in a group. It prints which of them are left to a reader who leaves `must_validate` off, as by default: the laws of
offers in smith_tree say what the files of marks come to then. Then it prints what the clauses on runs and refusals add, which know the builder,
and the files of the program whose types the definitions speak of. It exits with 1 if a check fails.

Run it at the top of the repository: python3 docs/closure.py
"""

import os
import re
import sys

CRATES = "crates"
CONTRACT = "smith_component/src/generation.rt"
BELOW_THE_MAKERS = {"smith_input", "smith_format", "smith_core", "smith_syntax", "smith_tree"}
VIEW = "smith_component/specs/Shown.antt"
HEADLINE = [
    ("One reading, well formed, within the limits", ["smith_tree/specs/Generates.antt", VIEW]),
    (
        "Scripts, plans, and which components can be generated",
        ["smith_tree/specs/Script.antt", "smith_tree/specs/Readable.antt", "smith_input/specs/Reading.antt"],
    ),
    ("What validates", ["smith_tree/specs/Validates.antt"]),
]
MARKS = {
    "smith_syntax/specs/Marked.antt",
    "smith_syntax/specs/Marks.antt",
    "smith_syntax/specs/Members.antt",
    "smith_syntax/specs/Sizes.antt",
    "smith_syntax/specs/Usable.antt",
    "smith_tree/specs/Marking.antt",
    "smith_tree/specs/Offered.antt",
}
UNMARKED = "smith_tree/specs/Unmarked.antt"
BUILDER = ("Runs and refusals", ["smith_component/specs/Runs.antt", "smith_component/specs/Refusals.antt"])
IMPORT = re.compile(r"\s*(?:pub |ghost )?use Rattle\.(\w+)\.(specs|proofs)\.([\w.]+?)(?:\.\{.*| as .*)?;?$")


def imports(path):
    """The crates, the definitions and the files of the program that this file imports. Of each of the program's types the toolchain
    has definitions, under `declared`, which are in no file of specs/."""
    with open(f"{CRATES}/{path}", encoding="utf-8") as file:
        for line in file:
            match = IMPORT.match(line.rstrip())
            if match:
                crate, folder, module = match.groups()
                imported = f"{crate}/{folder}/{module}.antt"
                exists = os.path.exists(f"{CRATES}/{imported}")
                yield crate, imported if exists else None, source_of(crate, module)


def source_of(crate, module):
    """The file of the program that declares what this module says of a type, if there is one here."""
    names = module.split(".")
    for end in range(len(names), 1, -1) if names[0] == "declared" else ():
        path = f"{crate}/src/{'/'.join(names[1:end])}.rt"
        if os.path.exists(f"{CRATES}/{path}"):
            return path
    return None


def closure(starts, unread=frozenset()):
    """These files, and all that they import, apart from those that stay unread."""
    seen, left = set(), list(starts)
    while left:
        path = left.pop()
        if path not in seen and path not in unread:
            seen.add(path)
            left += [imported for _, imported, _ in imports(path) if imported]
    return seen


def lines(path):
    with open(f"{CRATES}/{path}", encoding="utf-8") as file:
        return sum(1 for _ in file)


def print_files(title, files):
    print(f"{title}: {sum(map(lines, files))} lines")
    for path in sorted(files):
        print(f"  {lines(path):4} {path}")


def print_defaults():
    """What is left if nothing is kept for a validator."""
    starts = [path for title, paths in HEADLINE[:2] for path in paths]
    left = closure(starts + [UNMARKED], MARKS)
    unread = closure([path for _, paths in HEADLINE for path in paths]) - left
    print(f"By default, without must_validate: {sum(map(lines, left))} of these lines, without {sum(map(lines, unread))} of these files")
    for path in sorted(unread):
        print(f"  {lines(path):4} {path}")
    print(f"and with {lines(UNMARKED)} {UNMARKED}, of which the laws of offers in smith_tree speak")


def faults(files):
    """The imports that reach beyond the crates below the makers."""
    for path in sorted(files):
        for crate, _, _ in imports(path):
            if crate != "std" and crate not in BELOW_THE_MAKERS and path != VIEW:
                yield f"{path} imports {crate}"


def main():
    printed = set()
    for title, starts in HEADLINE:
        files = closure(starts) - printed
        print_files(title, files)
        printed |= files
    print_defaults()
    headline = set(printed)
    print_files(BUILDER[0], closure(BUILDER[1]) - printed)
    printed |= closure(BUILDER[1])
    print_files("The program's types", {source for path in printed for _, _, source in imports(path) if source})
    folders = {
        f"{crate}/specs/{name}"
        for crate in BELOW_THE_MAKERS
        for name in os.listdir(f"{CRATES}/{crate}/specs")
        if name.endswith(".antt")
    }
    found = list(faults(headline | folders))
    found += [f"no group has {it}, which the contract cites" for _, it, _ in imports(CONTRACT) if it and it not in printed]
    for fault in found:
        print(f"closure: {fault}")
    print(f"closure: {'FAILED' if found else 'passed'}")
    return 1 if found else 0


sys.exit(main())
