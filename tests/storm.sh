#!/usr/bin/env bash
# storm.sh PROGRAM AUDITED: the client of the command line beside a real server that is killed and started anew twenty times, where one is installed.
# Five subscriptions, two of them with a limit, stand the whole time; numbered messages are published meanwhile, and requests are made. What
# each subscription was given has to be in order with no number twice and, where it has a limit, no more than that; each publish and
# request has to end with its answer or a refusal. Beside it AUDITED, a client that does all of this in one process and then holds what it
# saw against the journal of its session, has to say that both agree. Says in its last line what came of it, or that this was skipped.
set -u
program=$(realpath "$1") || exit 1
audited=$(realpath "$2") || exit 1
if ! command -v nats-server > /dev/null; then
    echo "storm: skipped, since no nats-server is installed"
    exit 0
fi
folder=$(mktemp -d) || exit 1
server=
beside=()
stop() {
    kill "${beside[@]}" $server 2> /dev/null
    wait 2> /dev/null
    rm -rf "$folder"
}
trap stop EXIT

fail() {
    echo "storm: $1"
    exit 1
}

# await TIMES WORDS FILE: waits up to twenty seconds until so many lines of a file have the words
await() {
    for _ in $(seq 400); do
        [ "$(grep -c -- "$2" "$3" 2> /dev/null)" -ge "$1" ] && return 0
        sleep 0.05
    done
    fail "no '$2' in ${3##*/}"
}

# serve PORT: the server, once it listens
serve() {
    : > "$folder/log"
    nats-server -a 127.0.0.1 -p "$1" -DV -l "$folder/log" > /dev/null 2>&1 &
    server=$!
    await 1 'Listening for client connections on' "$folder/log"
}

serve -1
port=$(sed -n 's/.*Listening for client connections on .*:\([0-9]*\).*/\1/p' "$folder/log" | head -n 1)
export NATS_URL=nats://127.0.0.1:$port
for k in 1 2 3; do
    timeout 120 "$program" sub "storm.$k" > "$folder/sub.$k" 2> "$folder/told.$k" &
    beside+=($!)
done
for k in 4 5; do
    timeout 120 "$program" sub "storm.$k" --count 20 > "$folder/sub.$k" 2> "$folder/told.$k" &
    beside+=($!)
done
timeout 120 "$program" reply storm.ask yes > "$folder/asked" 2> "$folder/told.6" &
beside+=($!)
await 6 'SUB storm' "$folder/log"
timeout 120 "$audited" "$NATS_URL" 2000 > "$folder/audit" 2>&1 &
auditor=$!
beside+=("$auditor")
await 6 'SUB audit' "$folder/log"

# speak: publishes numbered messages and asks, until it is told to stop
speak() {
    number=0
    while [ ! -e "$folder/stop" ]; do
        number=$((number + 1))
        timeout 30 "$program" pub "storm.$((number % 5 + 1))" "$number" > /dev/null 2>&1
        echo "pub $?"
        if [ $((number % 5)) -eq 0 ]; then
            timeout 30 "$program" request storm.ask "$number" --timeout 2000 > "$folder/answer" 2> /dev/null
            echo "request $? $(cat "$folder/answer")"
        fi
    done
}
speak > "$folder/said" &
speaker=$!

for _ in $(seq 20); do
    sleep 0.3
    kill -9 "$server"
    wait "$server" 2> /dev/null
    serve "$port"
    await 1 'SUB storm.1 ' "$folder/log"
done
for k in 1 2 3 6; do await 21 '^connected$' "$folder/told.$k"; done
for _ in $(seq 200); do
    [ "$(grep -c '^[0-9]*$' "$folder/sub.4")" -ge 20 ] && [ "$(grep -c '^[0-9]*$' "$folder/sub.5")" -ge 20 ] && break
    sleep 0.1
done
touch "$folder/stop"
wait "$speaker"

given=0
for k in 1 2 3 4 5; do
    grep -E '^[0-9]+$' "$folder/sub.$k" > "$folder/numbers"
    sort -n -u "$folder/numbers" | cmp -s - "$folder/numbers" || fail "subscription $k: a number came twice, or out of order"
    given=$((given + $(wc -l < "$folder/numbers")))
    [ "$k" -lt 4 ] || [ "$(wc -l < "$folder/numbers")" -eq 20 ] || fail "subscription $k passed over its limit, or did not come to it"
done
grep -v -E '^(pub (0|9|10)|request 0 yes|request (9|10|11|12) )$' "$folder/said" > "$folder/other" && fail "another end: $(sort "$folder/other" | uniq -c | head -n 3)"
published=$(grep -c '^pub 0' "$folder/said")
refused=$(grep -c '^pub [^0]' "$folder/said")
answered=$(grep -c '^request 0' "$folder/said")
unanswered=$(grep -c '^request [^0]' "$folder/said")
[ "$published" -gt 0 ] && [ "$answered" -gt 0 ] || fail "nothing went through"
wait "$auditor"
[ "$(tail -n 1 "$folder/audit")" = agrees ] || fail "what a client saw and its journal: $(tail -n 8 "$folder/audit")"
echo "storm: a server was killed 20 times; $published publishes and $answered requests went through, $refused and $unanswered were refused; five" \
    "subscriptions were given $given messages in order, none twice; a client's journal agrees with what it saw"
