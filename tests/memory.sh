#!/usr/bin/env bash
# tests/memory.sh PROGRAM TWICE: runs commands of PROGRAM again and again, and refuses another allocation each time, from the first to the
# last. Each run has to end with status 7 and to print nothing; or to print all that it does else, where what was refused only served words
# on standard error. Two of the commands have a link to a server on the loopback. TWICE is a program that makes each call a second time where
# it wants memory, which has to print the same in each run.
# Says in its last line how many runs there were, or that this was skipped.
set -u
program=$(realpath "$1") || exit 1
twice=$(realpath "$2") || exit 1
here=$(cd "$(dirname "$0")" && pwd)

if ! command -v cc > /dev/null; then
    echo "refused memory: skipped, since no cc is installed"
    exit 0
fi
folder=$(mktemp -d) || exit 1
trap 'rm -rf "$folder"' EXIT
cc -O1 -shared -fPIC -o "$folder/refuse.so" "$here/memory/refuse.c" -ldl || exit 1
runs=0
whole=0
MOST=5000

# refuse NUMBER INPUT COMMAND..: a run in which this allocation is refused
refuse() {
    number=$1
    input=$2
    shift 2
    rm -f "$folder/mark"
    timeout 60 env REFUSE="$number" REFUSE_MARK="$folder/mark" LD_PRELOAD="$folder/refuse.so" \
        "$@" < "$input" > "$folder/out" 2> "$folder/err"
}

# each NAME INPUT WORDS..: all runs of a command
each() {
    name=$1
    input=$2
    shift 2
    "$program" "$@" < "$input" > "$folder/whole" || { echo "refused memory: $name: status $?"; exit 1; }
    for number in $(seq "$MOST"); do
        refuse "$number" "$input" "$program" "$@"
        status=$?
        if [ ! -e "$folder/mark" ]; then
            cmp -s "$folder/out" "$folder/whole" || { echo "refused memory: $name printed something else"; exit 1; }
            break
        fi
        runs=$((runs + 1))
        if [ "$status" -eq 0 ] && cmp -s "$folder/out" "$folder/whole"; then
            whole=$((whole + 1))
            continue
        fi
        if [ "$status" -ne 7 ] || [ -s "$folder/out" ]; then
            echo "refused memory: $name: allocation $number: status $status, $(wc -c < "$folder/out") bytes on standard output"
            exit 1
        fi
        grep -q '^replay: ' "$folder/err" || { echo "refused memory: $name: allocation $number: nothing is told"; exit 1; }
    done
    echo "refused memory: $name: $runs runs so far"
}

each requests "$here/memory/requests.script" run
for script in first limit_over_links worker_drains request service no_responders; do
    each "$script" "$here/../examples/$script.script" run
done
each bulk /dev/null bulk 8
each retry "$here/../examples/retry.script" rpc 2 100
each seats /dev/null seats 2 3
each threads /dev/null threads 2 3

if command -v python3 > /dev/null; then
    mkfifo "$folder/end"
    python3 "$here/memory/server.py" < "$folder/end" > "$folder/port" &
    exec 9> "$folder/end"
    until [ -s "$folder/port" ]; do sleep 0.05; done
    server=nats://127.0.0.1:$(cat "$folder/port")
    each publish /dev/null pub "$server" a hi
    each receive /dev/null sub "$server" a 1
    exec 9>&-
else
    echo "refused memory: publish and receive skipped, since no python3 is installed"
fi

again=0
"$twice" < /dev/null > "$folder/whole" || { echo "refused memory: a second try: status $?"; exit 1; }
for number in $(seq "$MOST"); do
    refuse "$number" /dev/null "$twice"
    status=$?
    [ -e "$folder/mark" ] || break
    again=$((again + 1))
    if [ "$status" -ne 0 ] || ! cmp -s "$folder/out" "$folder/whole"; then
        echo "refused memory: a second try: allocation $number: status $status"
        exit 1
    fi
done
echo "refused memory: $runs runs: $whole printed all, the others ended with status 7 and printed nothing; $again runs in which a second try" \
    "gave what the first would have given"
