#!/usr/bin/env bash
# tests/play.sh PROGRAM FOLDER..: gives each script of each folder to `PROGRAM run`, and compares what it prints and its
# exit status with what is stored. NAME.script.stdout beside a script holds its output, NAME.script.args the words that it
# is played with in place of `run`, one a line; FOLDER.statuses beside a folder has a line `NAME.script STATUS` for each
# script whose status is not 0. It prints a line for each script that differs, and ends with 1 where one does.
set -u

program=$1
shift
passed=0
failed=0
printed=$(mktemp)
trap 'rm -f "$printed"' EXIT

for folder in "$@"; do
    for script in "$folder"/*.script; do
        name=$(basename "$script")
        wanted=0
        if [ -f "$folder.statuses" ]; then
            line=$(grep "^$name " "$folder.statuses") && wanted=${line##* }
        fi
        words=(run)
        if [ -f "$script.args" ]; then
            mapfile -t words < "$script.args"
        fi
        timeout 60 "$program" "${words[@]}" < "$script" > "$printed"
        status=$?
        if [ "$status" -ne "$wanted" ]; then
            echo "differs: $script: status $status, wanted $wanted"
            failed=$((failed + 1))
        elif ! cmp -s "$printed" "$script.stdout"; then
            echo "differs: $script: $(cmp "$printed" "$script.stdout" 2>&1)"
            failed=$((failed + 1))
        else
            passed=$((passed + 1))
        fi
    done
done

echo "scripts: $passed as stored, $failed differ"
[ "$failed" -eq 0 ]
