#!/usr/bin/env bash
# client.sh PROGRAM: plays the client of the command line: its words, and against a real server on a free port of the loopback, where one is
# installed. Says in its last line what it did, or that this was skipped.
set -u
program=$(realpath "$1") || exit 1
folder=$(mktemp -d) || exit 1
server=
stop() {
    if [ -n "$server" ]; then
        kill "$server" 2> /dev/null
        wait "$server" 2> /dev/null
    fi
    rm -rf "$folder"
}
trap stop EXIT

fail() {
    echo "client: $1"
    exit 1
}

# status WANTED WORDS..: what the program ends with, whatever it prints
status() {
    wanted=$1
    shift
    timeout 60 "$program" "$@" > "$folder/out" 2> "$folder/err"
    got=$?
    [ "$got" -eq "$wanted" ] || fail "$*: status $got, wanted $wanted"
}

status 0 --help
status 0 --version
status 0 sub --help
status 0 bench --help
status 2
status 2 sub
status 2 pub a b --count 0
status 2 bench other
status 2 bench pub --msgs 0
status 9 --server nats://127.0.0.1:1 pub a b
grep -q '^no link: IO error' "$folder/err" || fail "a refused port is not told"
status 9 --server http://a pub a b

if ! command -v nats-server > /dev/null; then
    echo "client: its words; the rest skipped, since no nats-server is installed"
    exit 0
fi

# waits up to ten seconds for a text in the server's log
await() {
    for _ in $(seq 200); do
        grep -q -- "$1" "$folder/log" 2> /dev/null && return 0
        sleep 0.05
    done
    fail "no '$1' in the server's log"
}

# serve PORT WORDS..: the server, once it listens
serve() {
    at=$1
    shift
    : > "$folder/log"
    nats-server -a 127.0.0.1 -p "$at" -DV -l "$folder/log" "$@" > /dev/null 2>&1 &
    server=$!
    await 'Listening for client connections on'
    port=$(sed -n 's/.*Listening for client connections on .*:\([0-9]*\).*/\1/p' "$folder/log" | head -n 1)
    [ -n "$port" ] || fail "the server told no port"
    export NATS_URL=nats://127.0.0.1:$port
}

# halt: the server is killed
halt() {
    kill -9 "$server"
    wait "$server" 2> /dev/null
    server=
}

# listen NAME WORDS..: the program that runs beside, once the server knows of its subscription
listen() {
    name=$1
    shift
    timeout 60 "$program" "$@" > "$folder/$name.out" 2> "$folder/$name.err" &
    beside=$!
    await "SUB $2 "
}

# ended NAME STATUS: its end
ended() {
    wait "$beside"
    got=$?
    [ "$got" -eq "$2" ] || fail "$1: status $got, wanted $2: $(cat "$folder/$1.err")"
}

# shown NAME LINE: waits up to ten seconds for a line of what it prints
shown() {
    for _ in $(seq 200); do
        grep -qx -- "$2" "$folder/$1.out" && return 0
        sleep 0.05
    done
    fail "$1: no line '$2'"
}

# a message with headers and a reply, and one from standard input
serve -1
listen plain sub plain.one --count 2
status 0 pub plain.one hello --header K:v --header K:w --reply back
printf 'from\nhere' | timeout 60 "$program" pub plain.one - > /dev/null || fail "a payload from standard input"
ended plain 0
printf '[#1] Received on "plain.one" with reply "back"\nK: v\nK: w\n\nhello\n\n[#2] Received on "plain.one"\nfrom\nhere\n\n' \
    | cmp - "$folder/plain.out" || fail "what was received"
grep -q '^connected$' "$folder/plain.err" || fail "the link is not told"

# a request, its answer, and nobody who answers
listen clock reply clock.now noon --count 1
status 0 request clock.now x
[ "$(cat "$folder/out")" = noon ] || fail "the reply"
ended clock 0
status 12 request nobody.there x
status 10 pub 'a b' x
grep -q '^invalid subject' "$folder/err" || fail "a bad subject is not told"

# three of a queue group get each message once
for k in 1 2 3; do
    timeout 20 "$program" sub work.all --queue crew > "$folder/crew.$k" 2> /dev/null &
done
for _ in $(seq 200); do
    [ "$(grep -c 'SUB work.all crew' "$folder/log")" -eq 3 ] && break
    sleep 0.05
done
status 0 pub work.all job --count 300
for _ in $(seq 200); do
    [ "$(cat "$folder"/crew.? | grep -c '^job$')" -ge 300 ] && break
    sleep 0.05
done
[ "$(cat "$folder"/crew.? | grep -c '^job$')" -eq 300 ] || fail "the queue group got another number of messages"

# rates: of each kind, where two clients share the messages, and of one that takes what another process publishes
rated() {
    grep -Eq "^$2 stats: [0-9,]+ msgs/sec ~ [0-9,]+\.[0-9]{2} MB/sec$" "$1.out" || fail "the rate of $2: $(cat "$1.out")"
    tr '\r' '\n' < "$1.err" | grep -q "^$3 of $3" || fail "the progress of $2"
}
for way in pub:Pub pubsub:Pub/Sub request:Request; do
    status 0 bench "${way%%:*}" --msgs 1001 --size 16 --clients 2
    mv "$folder/out" "$folder/rate.out"
    mv "$folder/err" "$folder/rate.err"
    rated "$folder/rate" "${way##*:}" 501
done
timeout 60 "$program" bench sub --msgs 1000 > "$folder/taken.out" 2> "$folder/taken.err" &
beside=$!
for _ in $(seq 200); do
    grep -c 'SUB wichapok.bench ' "$folder/log" | grep -qx 3 && break
    sleep 0.05
done
status 0 bench pub --msgs 1000
ended taken 0
rated "$folder/taken" Sub 1000
halt

# numbered messages on two links, between which the server is killed once the first half came, since what a killed server still held is lost:
# what comes is in order, and none comes twice
serve "$port"
listen flow sub flow.n --count 200
for k in $(seq 100); do "$program" pub flow.n "$k" > /dev/null || fail "a publish on the first link"; done
shown flow 100
halt
serve "$port"
await 'SUB flow.n '
for k in $(seq 101 200); do "$program" pub flow.n "$k" > /dev/null || fail "a publish on the second link"; done
ended flow 0
grep -E '^[0-9]+$' "$folder/flow.out" | cmp - <(seq 200) || fail "what came is not in order"
[ "$(grep -c '^connected$' "$folder/flow.err")" -eq 2 ] || fail "the second link is not told"
halt

# a login by user and password, and by a token
serve -1 --user ada --pass secret
status 0 --user ada --password secret pub a b
status 9 --user ada --password other pub a b
grep -q 'authorization violation' "$folder/err" || fail "a refused login is not told"
halt
serve -1 --auth magic
status 0 --token magic pub a b
status 9 pub a b

echo "client: its words; messages, requests, a queue group, rates, a killed server and logins, against $(nats-server --version)"
