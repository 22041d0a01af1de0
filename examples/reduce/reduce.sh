#!/bin/sh
# Makes a component smaller as long as a test of it succeeds.
#
#     reduce.sh TEST FILE [OPTIONS]
#
# TEST is a command; the path of a component is put after it, and it must end with status 0 while the fault is there.
# OPTIONS are as for `lupinanon smaller`: --limits, --limit or --any. LUPINANON names the program if it is not in PATH.
# The smallest component that is found is FILE with `.min` before its ending; FILE is kept. It ends at a component of which
# no single item can be removed or made simpler.
set -u
if test $# -lt 2; then
    sed -n '2,9s/^# \{0,1\}//p' "$0" >&2
    exit 2
fi
TEST=$1
file=$2
shift 2
lupinanon=${LUPINANON:-lupinanon}
room=$(mktemp -d)
trap 'rm -rf "$room"' EXIT

# Whether the fault is there.
fails() {
    sh -c "$TEST \"\$1\"" test "$1" >/dev/null 2>&1
}

size() {
    wc -c <"$1" | tr -d ' '
}

# Writes the next smaller component from `step` on, the number of which `step` becomes. Whether there is one.
next() {
    "$lupinanon" smaller "$room/best" --from "$step" -o "$room/next" "$@" 2>"$room/why"
    case $? in
    0) step=$(sed -n 's/^step //p' "$room/why") ;;
    1) return 1 ;;
    *)
        cat "$room/why" >&2
        exit 2
        ;;
    esac
}

# Tries the smaller components from `step` on, each once. Whether one fails, and is the best one now.
finds() {
    while next "$@"; do
        test "$step" -lt "$end" || return 1
        tries=$((tries + 1))
        if fails "$room/next"; then
            mv "$room/next" "$room/best"
            echo "$(size "$room/best") bytes"
            return 0
        fi
        step=$((step + 1))
    done
    return 1
}

# Whether a step from `step` on, or else one before it, leads to a component that fails.
finds_around() {
    start=$step
    end=$most
    finds "$@" && return 0
    step=0
    end=$start
    test "$step" -lt "$end" && finds "$@"
}

cp "$file" "$room/best" || exit 2
if ! fails "$file"; then
    echo "reduce.sh: $file: the test fails" >&2
    exit 2
fi
tries=0
step=0
# A number that no step has.
most=9223372036854775807
echo "$(size "$file") bytes"
# The steps before the last one that was taken come last, since a larger component's have been tried.
while finds_around "$@"; do :; done
case $file in
*.*) smallest=${file%.*}.min.${file##*.} ;;
*) smallest=$file.min ;;
esac
cp "$room/best" "$smallest" || exit 2
echo "$smallest: $(size "$smallest") bytes after $tries tries"
