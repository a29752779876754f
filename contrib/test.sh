#!/bin/bash
# Runs the tests of contrib that need neither packages nor a network beyond loopback, side by side: each contrib/*/test_*.py of
# unittest. One that needs python3-cryptography is passed over with a line where that is missing. It prints a line for each, and what
# one that fails says, and ends with status 0 only where none fails. None depends on the day: Debian's `faketime` shows it, as
# `faketime 2099-07-01 contrib/test.sh`.
set -u

cd "$(dirname "$0")" || exit 1
export PYTHONDONTWRITEBYTECODE=1
room=$(mktemp -d) || exit 1
trap 'rm -rf "$room"' EXIT

lacks_cryptography() {
    grep -q -E '^(from|import) cryptography' "$1" && ! python3 -c 'import cryptography' 2> /dev/null
}

names=()
pids=()
for test in */test_*.py; do
    grep -q '^import unittest' "$test" || continue
    if lacks_cryptography "$test"; then
        echo "contrib/$test: passed over, since python3-cryptography is missing"
        continue
    fi
    python3 "$test" > "$room/${#names[@]}" 2>&1 < /dev/null &
    names+=("$test")
    pids+=($!)
done

failed=0
for i in "${!names[@]}"; do
    if wait "${pids[i]}"; then
        echo "contrib/${names[i]}: $(grep '^Ran ' "$room/$i" | tail -n 1 | sed 's/^Ran //')"
    else
        failed=1
        echo "contrib/${names[i]}: failed"
        cat "$room/$i"
    fi
done
exit "$failed"
