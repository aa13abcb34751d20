#!/usr/bin/env bash
# serve.sh PROGRAM: plays the broker that the program serves, with the program itself as its clients: messages, a request and its answer, a
# request that nobody answers, more clients than there are seats, rates, and what a benchmark says where messages are lost. Says `serve.sh: ok`
# in its last line, or what differs.
set -u
program=$(realpath "$1") || exit 1
folder=$(mktemp -d) || exit 1
server=
beside=()
stop() {
    kill $server "${beside[@]}" 2> /dev/null
    wait 2> /dev/null
    rm -rf "$folder"
}
trap stop EXIT

fail() {
    echo "serve.sh: $1"
    exit 1
}

# await WORDS FILE: waits up to ten seconds until a line of a file has the words
await() {
    for _ in $(seq 200); do
        grep -q -- "$1" "$2" 2> /dev/null && return 0
        sleep 0.05
    done
    fail "no '$1' in ${2##*/}"
}

# serve WORDS..: the broker, on a port that the system picks, once it says so
serve() {
    : > "$folder/served"
    "$program" serve --port 0 "$@" > "$folder/served" 2> "$folder/served.err" &
    server=$!
    await '^serving NATS on 127.0.0.1:' "$folder/served"
    port=$(sed -n 's/^serving NATS on 127\.0\.0\.1:\([0-9]*\), at most .*/\1/p' "$folder/served")
    [ -n "$port" ] || fail "the broker told no port: $(cat "$folder/served")"
    export NATS_URL=nats://127.0.0.1:$port
}

# halt: the broker is ended, by a signal
halt() {
    kill "$server"
    wait "$server" 2> /dev/null
    server=
}

# status WANTED WORDS..: what the program ends with
status() {
    wanted=$1
    shift
    timeout 60 "$program" "$@" > "$folder/out" 2> "$folder/err"
    got=$?
    [ "$got" -eq "$wanted" ] || fail "$*: status $got, wanted $wanted: $(cat "$folder/err")"
}

# listen NAME SUBJECT WORDS..: the program that runs beside, once a request to its subject finds it, which it counts as its first message
listen() {
    name=$1
    subject=$2
    shift 2
    timeout 100 "$program" "$@" > "$folder/$name.out" 2> "$folder/$name.err" &
    beside=($!)
    for _ in $(seq 200); do
        timeout 60 "$program" request "$subject" found --timeout 200 > /dev/null 2>&1
        [ $? -ne 12 ] && return 0
        sleep 0.05
    done
    fail "$name: nobody listens: $(cat "$folder/$name.err")"
}

# ended NAME STATUS: its end
ended() {
    wait "${beside[0]}"
    got=$?
    beside=()
    [ "$got" -eq "$2" ] || fail "$1: status $got, wanted $2: $(cat "$folder/$1.err")"
}

status 0 serve --help
status 2 serve --max 0
status 2 serve --port 65536

# three messages, to a subscription with a wildcard
serve
grep -qx "serving NATS on 127.0.0.1:$port, at most 64 clients" "$folder/served" || fail "its line: $(cat "$folder/served")"
status 9 serve --port "$port"
listen three served.found sub 'served.*' --count 4
status 0 pub served.one hello --count 3
ended three 0
[ "$(grep -c '^\[#[234]\] Received on "served.one"$' "$folder/three.out")" -eq 3 ] || fail "what was received: $(cat "$folder/three.out")"
[ "$(grep -c '^hello$' "$folder/three.out")" -eq 3 ] || fail "the payloads: $(cat "$folder/three.out")"

# a request, its answer, and nobody who answers
listen clock clock.now reply clock.now noon --count 2
status 0 request clock.now x
[ "$(cat "$folder/out")" = noon ] || fail "the reply: $(cat "$folder/out")"
ended clock 0
status 12 request nobody.there x

# rates
for way in pub:Pub pubsub:Pub/Sub request:Request; do
    status 0 bench "${way%%:*}" --msgs 1000 --size 16 --clients 2
    grep -Eq "^${way##*:} stats: [0-9,]+ msgs/sec ~ [0-9,]+\.[0-9]{2} MB/sec$" "$folder/out" || fail "the rate of $way: $(cat "$folder/out")"
done

# half of the messages that are waited for come
listen half wichapok.bench bench sub --msgs 200
status 0 bench pub --msgs 99
ended half 13
grep -qx '100 of 200 messages came' "$folder/half.err" || fail "what is told of lost messages: $(cat "$folder/half.err")"
grep -q '^Sub stats: ' "$folder/half.out" || fail "no rate of what came"

# the broker is gone for good while a benchmark goes on
timeout 100 "$program" bench pubsub --msgs 50000000 > "$folder/gone.out" 2> "$folder/gone.err" &
beside=($!)
await '^connected$' "$folder/gone.err"
sleep 1
halt
ended gone 13
grep -Eq '^[0-9]+ of 50000000 messages came$' "$folder/gone.err" || fail "what is told of a broker that is gone: $(tail -n 3 "$folder/gone.err")"

# a fourth client finds no seat, and does once one is free
serve --max 3
for k in 1 2 3; do
    "$program" sub seats > "$folder/seat.$k" 2> "$folder/seat.$k.err" &
    beside+=($!)
done
# tried STATUS: waits up to ten seconds until a message ends with this status
tried() {
    for _ in $(seq 200); do
        timeout 60 "$program" pub seats free > /dev/null 2>&1
        [ $? -eq "$1" ] && return 0
        sleep 0.05
    done
    fail "no message ends with status $1"
}
tried 9
kill "${beside[0]}"
wait "${beside[0]}" 2> /dev/null
beside=("${beside[@]:1}")
tried 0
await '^free$' "$folder/seat.2"
await '^free$' "$folder/seat.3"

echo "serve.sh: ok"
