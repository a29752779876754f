#!/bin/bash
# Three authorities on loopback under the test scheme, from their start to the first consensus that they publish.
#
#     [MIRROR=DIRMIRROR] run.sh DIRAUTH FOLDER [COMMAND ...]
#
# makes FOLDER, which must not be there yet, starts three of the program DIRAUTH on it, waits until each has published (six and a
# half minutes at most, since a period has 300 seconds), fetches both flavours from each into FOLDER, and checks them with
# test_network.py. COMMAND, where there is one, runs meanwhile with the three addresses as further words, and is waited for. With
# RELAYS=N the authorities know N relays in place of 5. With MIRROR=DIRMIRROR that program runs beside them, asks all three once a minute,
# and has to have what they published within 75 seconds: the microdesc consensus, every microdescriptor that it names, and the
# certificates of its signers (try/mirrored.py).
# It ends with status 0 only where each authority published both flavours, all the same bytes with a right signature of each, where
# none ended by itself, and where COMMAND succeeded. All that it started is ended behind it.
set -u

here=$(cd "$(dirname "$0")" && pwd)
interval=300
# The next consensus is at most so far away: an interval, and the time for votes and for signatures.
longest=$((interval + 40 + 40))

if [ $# -lt 2 ]; then
    echo "usage: run.sh DIRAUTH FOLDER [COMMAND ...]" >&2
    exit 2
fi
dirauth=$1
folder=$2
shift 2

for program in "$dirauth" ${MIRROR:+"$MIRROR"}; do
    if [ ! -x "$program" ] || [ -d "$program" ]; then
        echo "run.sh: $program is no program" >&2
        exit 1
    fi
done

pids=()
command_pid=
clean_up() {
    for pid in "${pids[@]}" $command_pid; do
        kill "$pid" 2> /dev/null
    done
    wait
}
trap clean_up EXIT
trap 'exit 1' HUP INT TERM

fail() {
    echo "run.sh: $*" >&2
    tail -n 3 "$folder"/auth*.err >&2
    exit 1
}

# fetch ADDRESS PATH FILE: the document at a path, where there is one.
fetch() {
    curl --silent --show-error --fail --max-time 20 --output "$3" "http://$1$2" 2> "$folder/curl.err"
}

# wait_for SECONDS ADDRESS PATH FILE: fetches a document once it is there.
wait_for() {
    local end=$((SECONDS + $1))
    until fetch "$2" "$3" "$4"; do
        for pid in "${pids[@]}"; do
            kill -0 "$pid" 2> /dev/null || fail "an authority or the mirror ended"
        done
        [ $SECONDS -lt $end ] || fail "no $3 from $2 within $1 seconds: $(cat "$folder/curl.err")"
        sleep 1
    done
}

python3 "$here/test_network.py" make --authorities 3 --relays "${RELAYS:-5}" \
    --schedule $interval 40 40 "$folder" || exit 1
mapfile -t names < <(cut -d ' ' -f 1 "$folder/network")
mapfile -t addresses < <(cut -d ' ' -f 3 "$folder/network")

for i in 0 1 2; do
    "$dirauth" --test-keys serve --listen "${addresses[i]}" \
        < "$folder/${names[i]}.station" > "$folder/${names[i]}.out" 2> "$folder/${names[i]}.err" &
    pids+=($!)
done
for i in 0 1 2; do
    wait_for 20 "${addresses[i]}" /tor/server/all "$folder/${names[i]}.descriptors"
done
echo "three authorities listen at ${addresses[*]}"

mirror_address=127.0.0.1:18090
if [ -n "${MIRROR:-}" ]; then
    roster=$(cut -d ' ' -f 2 "$folder/network" | paste -s -d ,)
    peers=$(cut -d ' ' -f 3 "$folder/network" | paste -s -d ,)
    "$MIRROR" --test-keys --authorities "$roster" --peers "$peers" --listen $mirror_address \
        < /dev/null > "$folder/mirror.out" 2> "$folder/mirror.err" &
    pids+=($!)
    echo "a mirror of them listens at $mirror_address"
fi

if [ $# -gt 0 ]; then
    "$@" "${addresses[@]}" &
    command_pid=$!
fi

for i in 0 1 2; do
    wait_for $((longest + 20)) "${addresses[i]}" /tor/status-vote/current/consensus "$folder/${names[i]}.ns"
    wait_for 20 "${addresses[i]}" /tor/status-vote/current/consensus-microdesc "$folder/${names[i]}.microdesc"
done
python3 "$here/test_network.py" check "$folder" || fail "what the authorities publish is not as it must be"

if [ -n "${MIRROR:-}" ]; then
    python3 "$here/try/mirrored.py" --within 75 $mirror_address "${addresses[@]}" || fail "the mirror has not what was published"
fi

if [ -n "$command_pid" ]; then
    wait "$command_pid" || fail "$1 failed"
fi
for pid in "${pids[@]}"; do
    kill -0 "$pid" 2> /dev/null || fail "an authority or the mirror ended"
done
echo "published by all three"
