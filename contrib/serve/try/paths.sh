#!/bin/bash
# Asks an authority for each path that there is, and for some that there are not, and looks at the codes and the words.
#
#     run.sh DIRAUTH FOLDER try/paths.sh FOLDER/another.descriptor
#
# The words behind the descriptor are the addresses of two authorities or more that are in the first period of their run. It waits
# for the texts of that period, and then for their publication; seven minutes at most. A line for each request, `ok` or `WRONG`;
# status 0 only where each is ok.
set -u

if [ $# -lt 3 ] || [ ! -f "$1" ]; then
    echo "usage: paths.sh DESCRIPTOR IP:PORT IP:PORT: a file, and two authorities" >&2
    exit 2
fi
descriptor=$1
first=$2
second=$3

work=$(mktemp -d)
trap 'rm -rf "$work"' EXIT
wrong=0

# ask ADDRESS CODE WORDS METHOD PATH [OPTION ...]: one request; the body must be WORDS, or a document where WORDS is `-`.
ask() {
    local address=$1 code=$2 words=$3 method=$4 path=$5
    shift 5
    local got said=ok
    got=$(curl --silent --max-time 30 --output "$work/body" --write-out '%{http_code}' --request "$method" --header 'Expect:' \
        "$@" "http://$address$path")
    [ "$got" = "$code" ] || said=WRONG
    if [ "$words" = - ]; then
        [ -s "$work/body" ] || said=WRONG
    else
        [ "$(cat "$work/body" 2> /dev/null)" = "$words" ] || said=WRONG
    fi
    [ $said = ok ] || wrong=$((wrong + 1))
    echo "$said $method ${path:0:90}: $got, $(wc -c < "$work/body") bytes$([ $said = ok ] || echo ", wanted $code '$words'")"
    rm -f "$work/body"
}

# wait_for SECONDS PATH: until the first authority has a document.
wait_for() {
    local end=$((SECONDS + $1))
    until curl --silent --fail --max-time 20 --output "$work/found" "http://$first$2"; do
        [ $SECONDS -lt $end ] || { echo "WRONG no $2 within $1 seconds"; exit 1; }
        sleep 0.3
    done
}

next=/tor/status-vote/next
current=/tor/status-vote/current
none=$(printf '%040d' 0)

# What there is from the start on.
relay=$(sed -n 's/^fingerprint //p' "$descriptor" | tr -d ' ')
head -c 65537 /dev/zero | tr '\0' x > "$work/long"
ask "$first" 404 '' GET $current/consensus
ask "$first" 404 '' GET $current/consensus-microdesc
ask "$first" 404 '' GET $next/consensus-signatures
ask "$first" 400 not-computed POST /tor/post/consensus-signature --data-binary x
ask "$first" 200 - GET /tor/server/all
ask "$first" 404 '' GET "/tor/server/fp/$relay"
ask "$first" 200 kept POST /tor/ --data-binary "@$descriptor"
ask "$first" 200 have POST /tor/ --data-binary "@$descriptor"
ask "$first" 200 - GET "/tor/server/fp/$relay"
ask "$first" 200 - GET "/tor/server/fp/${relay,,}"
ask "$first" 400 document POST /tor/ --data-binary x
ask "$first" 413 '' POST /tor/ --data-binary "@$work/long"
ask "$first" 404 '' POST /tor/post/other --data-binary x
ask "$first" 404 '' POST $next/authority --data-binary x
ask "$first" 404 '' GET /
ask "$first" 404 '' GET /tor/server/all.z
ask "$first" 404 '' GET "/tor/server/fp/$relay.z"
ask "$first" 404 '' GET /tor/post/vote
ask "$first" 404 '' GET /tor/micro/d/
ask "$first" 405 '' PUT /tor/server/all --data-binary x
ask "$first" 405 '' DELETE /tor/server/all

# The votes.
wait_for 340 $next/authority
cp "$work/found" "$work/vote"
own=$(sed -n 's/^dir-source [^ ]* \([0-9A-F]*\) .*/\1/p' "$work/vote")
length=$(grep --text --byte-offset --only-matching '^directory-signature ' "$work/vote" | cut -d : -f 1)
digest=$(head -c $((length + 20)) "$work/vote" | sha1sum | cut -d ' ' -f 1)
mapfile -t micros < <(sed -n 's/^m [0-9,]* sha256=//p' "$work/vote" | head -n 2)
ask "$first" 200 - GET "$next/$own"
ask "$first" 200 - GET "$next/d/$digest"
ask "$first" 404 '' GET "$next/$none"
ask "$first" 404 '' GET "$next/d/$none"
ask "$first" 404 '' GET "$next/d/$own"
ask "$first" 200 - GET /tor/keys/all
ask "$first" 200 - GET "/tor/keys/fp/$own"
ask "$first" 404 '' GET "/tor/keys/fp/$none"
ask "$first" 200 - GET "/tor/micro/d/${micros[0]}"
ask "$first" 200 - GET "/tor/micro/d/${micros[1]}-${micros[0]}"
ask "$first" 404 '' GET "/tor/micro/d/${micros[0]}="
ask "$second" 400 document POST /tor/post/vote --data-binary x
sleep 3
ask "$second" 200 - GET "$next/$own"
ask "$second" 200 have POST /tor/post/vote --data-binary "@$work/vote"
(cat "$work/vote"; echo; echo) > "$work/blanks"
ask "$second" 200 have POST /tor/post/vote --data-binary "@$work/blanks"
(cat "$work/vote"; echo x) > "$work/more"
ask "$second" 400 document POST /tor/post/vote --data-binary "@$work/more"
sed 's/^contact .*/contact another/' "$work/vote" > "$work/forged"
ask "$second" 400 signature POST /tor/post/vote --data-binary "@$work/forged"

# The texts and their signatures.
wait_for 120 $next/consensus
ask "$first" 200 - GET $next/consensus
ask "$first" 200 - GET $next/consensus-microdesc
ask "$first" 200 - GET $next/consensus-signatures
sleep 3
wait_for 10 $next/consensus-signatures
cp "$work/found" "$work/signatures"
echo "   $(grep --extended-regexp --count '^(directory|additional)-signature' "$work/signatures") signatures are held"
held=$(grep --extended-regexp --count '^(directory|additional)-signature' "$work/signatures")
ask "$second" 200 "taken $held of $held" POST /tor/post/consensus-signature --data-binary "@$work/signatures"
ask "$second" 400 document POST /tor/post/consensus-signature --data-binary x
sed 's/^valid-after .*/valid-after 2026-01-01 00:00:00/' "$work/signatures" > "$work/other"
ask "$second" 400 other-period POST /tor/post/consensus-signature --data-binary "@$work/other"
ask "$second" 400 late POST /tor/post/vote --data-binary "@$work/vote"

# What is published, and the period behind it.
wait_for 90 $current/consensus
ask "$first" 200 - GET $current/consensus
ask "$first" 200 - GET $current/consensus-microdesc
ask "$first" 404 '' GET $next/consensus
ask "$first" 404 '' GET $next/consensus-microdesc
ask "$first" 404 '' GET $next/consensus-signatures
ask "$first" 404 '' GET $next/authority
ask "$first" 404 '' GET /tor/keys/all
ask "$second" 400 other-period POST /tor/post/vote --data-binary "@$work/vote"

echo "$wrong wrong"
[ $wrong -eq 0 ]
