#!/bin/bash
# Tries edits that the check must refuse, of crates whose edits are not tried by the gate.
#
#     run.sh NAME ...            tries those in contrib/strength/NAME, for each crate that is named
#     run.sh --list [NAME ...]   only looks whether each still stands in its file, and proves nothing; with no name, of every crate
#
# It copies the crates to a temporary folder, with the libraries that stand in their out/ and what checks of the named ones kept there,
# puts the edits into must-fail/ there, and runs `rt must-fail NAME ...`, which says of each edit whether it is refused, and what
# refused it first. What a check has not proved yet is proved first. It ends with status 0 only where each edit was refused, and leaves
# nothing behind. RT_JOBS=N has no more than N checks at once.
set -u

here=$(cd "$(dirname "$0")" && pwd)
top=$(cd "$here/../.." && pwd)

if [ "${1:-}" = --list ]; then
    shift
    exec python3 "$here/applies.py" "$@"
fi
if [ $# -eq 0 ]; then
    echo "usage: run.sh NAME ... | run.sh --list [NAME ...]" >&2
    exit 2
fi
python3 "$here/applies.py" "$@" || exit 1

room=$(mktemp -d) || exit 1
tries=
clean_up() {
    [ -z "$tries" ] || kill -- "-$tries" 2> /dev/null
    wait
    rm -rf "$room"
}
trap clean_up EXIT
trap 'exit 1' HUP INT TERM

# copy CRATE: its files, and the library that was built of it. Links serve, since a build puts new files in the place of old ones.
copy() {
    mkdir -p "$room/crates/$1/out"
    for part in src specs proofs; do
        [ ! -d "$top/crates/$1/$part" ] || cp -a "$top/crates/$1/$part" "$room/crates/$1/"
    done
    [ ! -d "$top/crates/$1/out/rlib" ] || cp -al "$top/crates/$1/out/rlib" "$room/crates/$1/out/" 2> /dev/null ||
        { rm -rf "$room/crates/$1/out/rlib"; cp -a "$top/crates/$1/out/rlib" "$room/crates/$1/out/"; }
}

cp -a "$top/crates.txt" "$room/"
[ ! -f "$top/HANDLES" ] || cp -a "$top/HANDLES" "$room/"
for folder in "$top"/crates/*/src; do
    copy "$(basename "$(dirname "$folder")")" || exit 1
done
for name in "$@"; do
    mkdir -p "$room/crates/$name/must-fail"
    cp "$here/$name"/*.edit "$room/crates/$name/must-fail/" || exit 1
    [ ! -d "$top/crates/$name/out/incremental" ] || cp -a "$top/crates/$name/out/incremental" "$room/crates/$name/out/" || exit 1
done
edits=$(ls "$room"/crates/*/must-fail/*.edit | wc -l)

# In a group of its own, so that it ends whole where this is ended. What it says is there before it is followed.
: > "$room/said"
set -m
(cd "$room" && exec rt must-fail "$@") > "$room/said" 2>&1 &
tries=$!
set +m
tail -n +1 -f --pid="$tries" "$room/said"
wait "$tries"
status=$?
tries=
refused=$(grep -c '^rt: must-fail .*: refused, as it must be' "$room/said")
little=$(grep -c -E '^rt: must-fail .*: refused, as it must be \(only ' "$room/said")
echo "$refused of $edits edits refused, $little of them only by a name that is gone or a limit"
[ "$status" -eq 0 ] && [ "$refused" -eq "$edits" ]
