#!/usr/bin/env bash
# live.sh PROGRAM: plays `pub` and `sub` of the built program against a real server on a free port of the loopback, where one is
# installed. Says in its last line what it did, or that this was skipped.
set -u
program=$(realpath "$1") || exit 1

if ! command -v nats-server > /dev/null; then
    echo "live commands: skipped, since no nats-server is installed"
    exit 0
fi

folder=$(mktemp -d) || exit 1
server=
stop() {
    if [ -n "$server" ]; then
        kill "$server" 2> /dev/null
        wait "$server" 2> /dev/null
    fi
    rm -rf "$folder"
}
trap stop EXIT

fail() {
    echo "live commands: $1"
    exit 1
}

# waits up to ten seconds for a text in the server's log
await() {
    for _ in $(seq 200); do
        grep -q -- "$1" "$folder/log" 2> /dev/null && return 0
        sleep 0.05
    done
    fail "no '$1' in the server's log"
}

nats-server -a 127.0.0.1 -p -1 -DV -l "$folder/log" > /dev/null 2>&1 &
server=$!
await 'Listening for client connections on'
port=$(sed -n 's/.*Listening for client connections on .*:\([0-9]*\).*/\1/p' "$folder/log" | head -n 1)
[ -n "$port" ] || fail "the server told no port"
address=nats://127.0.0.1:$port

# subscribe NAME COUNT: a `sub` that runs beside, once the server knows of it
subscribe() {
    timeout 60 "$program" sub "$address" "$1" "$2" > "$folder/$1.out" &
    subscriber=$!
    await "SUB $1 1"
}

# received NAME STATUS: the subscriber's end, and what it printed
received() {
    wait "$subscriber"
    status=$?
    [ "$status" -eq "$2" ] || fail "sub $1: status $status, wanted $2"
    cmp "$folder/$1.out" "$folder/$1.want" || fail "sub $1 printed something else"
}

# publish NAME PAYLOAD: by the program
publish() {
    [ "$("$program" pub "$address" "$1" "$2")" = published ] || fail "pub $1 did not print that it published"
}

# speak FILE: another client sends the bytes of a file, and goes once the server took all of them
speak() {
    exec 3<> "/dev/tcp/127.0.0.1/$port" || fail "no second client"
    printf 'CONNECT {"verbose":false}\r\n' >&3
    cat "$1" >&3
    printf 'PING\r\n' >&3
    while read -r line <&3; do
        case $line in PONG*) break ;; esac
    done
    exec 3>&- 3<&-
}

# one message, by the program on both sides
subscribe live.one 1
publish live.one 'hi there'
echo 'message live.one ~ hi%20there ~ ~ 16 ~' > "$folder/live.one.want"
received live.one 0

# nobody subscribes
publish live.none hi

# a thousand messages, in order
seq 1000 | while read -r k; do
    printf 'PUB live.many %s\r\n%s\r\n' "${#k}" "$k"
done > "$folder/many"
seq 1000 | while read -r k; do
    echo "message live.many ~ $k ~ ~ $((9 + ${#k})) ~"
done > "$folder/live.many.want"
subscribe live.many 1000
speak "$folder/many"
received live.many 0

# a payload of a megabyte, which no word of a command line holds
body=$(head -c 1048576 /dev/zero | tr '\0' x)
printf 'PUB live.big 1048576\r\n%s\r\n' "$body" > "$folder/big"
echo "message live.big ~ $body ~ ~ 1048584 ~" > "$folder/live.big.want"
subscribe live.big 1
speak "$folder/big"
received live.big 0

# the longest payload that a word holds, nearly
body=$(head -c 130000 /dev/zero | tr '\0' y)
echo "message live.long ~ $body ~ ~ 130009 ~" > "$folder/live.long.want"
subscribe live.long 1
publish live.long "$body"
received live.long 0

# the server is killed while a subscriber waits
subscribe live.lost 1
echo 'link ended' > "$folder/live.lost.want"
kill -9 "$server"
wait "$server" 2> /dev/null
server=
received live.lost 9

echo "live commands: one message, a thousand, a megabyte, none to hear and a killed server, against $(nats-server --version)"
