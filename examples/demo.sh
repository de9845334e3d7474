#!/usr/bin/env bash
# Queries the example data, loads it into a Parquet file, queries that and checks it, and shows each command with
# what it prints. The file lies in a temporary folder. The proved program runs them where it is built; else its
# sources do, unproved.
#
# usage: examples/demo.sh PROGRAM
set -euo pipefail
program=$(realpath -m "$1")
cd "$(dirname "$0")"
work=$(mktemp -d)
trap 'rm -rf "$work"' EXIT
mkdir "$work/cases"
file=$work/events.parquet

# keeps a call as a case: its input, its words, one a line, and the command as one types it
commands=()
call() {
    local input=$1 word command=vstore case=$work/cases/${#commands[@]}
    shift
    for word in "$@"; do
        case $word in
            "$file") command+=" events.parquet" ;;
            scan | load | query | check | --*) command+=" $word" ;;
            *) command+=" '$word'" ;;
        esac
    done
    if [ "$input" ]; then
        command+=" < examples/$input"
    fi
    cat "${input:-/dev/null}" > "$case"
    printf '%s\n' "$@" > "$case.args"
    commands+=("$command")
}

call events.jsonl scan '$.device' '$.reading'
call events.jsonl load "$file" --schema '{device:int32,reading:decimal(9,2),user:{name:string,visits:int64},tags:[string]}'
call '' query "$file" --where '$.reading > 21 and $.tags[*] = "eu"' '$.device' '$.user.visits'
call '' query "$file" --where '$.reading >= ""' '$.device' '$.reading'
call '' query "$file" --where '$.alarm exists' '$.device' '$.alarm' '$.tags[*]'
call '' check "$file"

# prints what each case prints, below a line '== CASE'
run_proved() {
    local case words
    for case in "${!commands[@]}"; do
        mapfile -t words < "$work/cases/$case.args"
        echo "== $case"
        "$program" "${words[@]}" < "$work/cases/$case"
    done
}

# the same, by sources that are built in one go and not proved; what rt says beside it is shown where it fails
run_unproved() {
    (cd ../crates/vstore && rt try --cases "$work/cases") 2> "$work/err" || {
        cat "$work/err" >&2
        return 1
    }
}

if [ -x "$program" ]; then
    echo "# by the proved program, $(realpath --relative-to=.. "$program")"
    run=run_proved
else
    echo "# unproved, by 'rt try', since the program isn't built: a minute or more ('make build' proves and builds it)"
    run=run_unproved
fi
"$run" | while IFS= read -r line; do
    case $line in
        "== "*) printf '\n$ %s\n' "${commands[${line#== }]}" ;;
        *) printf '%s\n' "$line" ;;
    esac
done
