#!/usr/bin/env bash
# Runs the plain program on the worked runs, and prints the names of those that it answers otherwise than they say.
#
#     bench/plain/check.sh PLAIN
plain=$(realpath "${1:?PLAIN is missing}")
folder=$(mktemp -d)
trap 'rm -rf "$folder"' EXIT
cp -r "$(dirname "$0")/../../crates/worked_runs/data/runs" "$folder"
fails=0
for run in "$folder"/runs/*/; do
    cd "$run" || exit
    [ -e room ] && continue
    mapfile -t words < args
    touch "$folder/none"
    timeout 60 "$plain" "${words[@]}" > "$folder/out" 2> "$folder/err"
    status=$?
    for what in stdout:out stderr:err; do
        want=${what%:*}
        [ -e "$want" ] || want=$folder/none
        cmp -s "$want" "$folder/${what#*:}" || status=differs
    done
    if [ "$status" != "$(cat status 2> /dev/null || echo 0)" ]; then
        fails=$((fails + 1))
        basename "$run"
    fi
done
echo "$fails differ"
