#!/usr/bin/env bash
# Runs the same jobs by vstore and by jq on the example data, and prints both as a table in Markdown.
#
# usage: examples/beside_jq.sh PROGRAM
set -eu
program=$(realpath "$1")
cd "$(dirname "$0")"

# one row: the job, jq's program, a note or '', vstore's words
row() {
    local job=$1 filter=$2 note=$3 words="" word
    shift 3
    for word in "$@"; do
        case $word in
            --where) words+=" $word" ;;
            *) words+=" '$word'" ;;
        esac
    done
    ours=$("$program" scan "$@" < events.jsonl | sed 's/.*/`&`/' | paste -sd ' ')
    theirs=$(jq -c "$filter" < events.jsonl | sed 's/.*/`&`/' | paste -sd ' ')
    printf '| %s | `scan%s` | %s | `jq -c '"'%s'"'` | %s%s |\n' "$job" "$words" "$ours" "${filter//|/\\|}" "$theirs" "$note"
}

echo "| Job | vstore | prints | jq | prints |"
echo "|---|---|---|---|---|"
row "a member" '.device' '' '$.device'
row "a member of a member" '.user.name' ' (null for a missing name)' '$.user.name'
row "several members" '{device, reading}' '' '$.device' '$.reading'
row "documents that have a member" 'select(has("alarm")) | .device' '' --where '$.alarm exists' '$.device'
row "documents that lack a member" 'select(has("tags") | not) | .device' '' --where '$.tags missing' '$.device'
row "a member that is null" 'select(.alarm == null) | .device' ' - **wrong**: a missing alarm counts as null' --where '$.alarm = null' '$.device'
row "numbers above a limit" 'select(.reading > 21) | .device' ' - **wrong**: the text of device 18 is above each number' --where '$.reading > 21' '$.device'
row "a number by its value" 'select(.reading == 21.5) | .device' '' --where '$.reading = 21.5' '$.device'
row "a whole number of 16 digits" 'select(.user.visits == 9007199254740993) | .user.visits' ' - **wrong**: the number is rounded' --where '$.user.visits = 9007199254740993' '$.user.visits'
row "some element of an array" 'select(any(.tags[]?; . == "eu")) | .device' '' --where '$.tags[*] = "eu"' '$.device'
row "all elements of an array" '[.tags[]?]' '' '$.tags[*]'
row "values that aren't numbers" 'select(has("reading") and (.reading | type) != "number") | .reading' '' --where '$.reading exists and not ($.reading > 0 or $.reading <= 0)' '$.reading'
