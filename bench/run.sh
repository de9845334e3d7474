#!/usr/bin/env bash
# Times `vstore scan` on generated JSON lines, beside jq where it is installed, `vstore variant`, and `vstore load`,
# `query` and `check` beside sqlite3 where it is installed, and counts instructions per byte where valgrind is. Prints
# tables in Markdown.
#
# usage: bench/run.sh PROGRAM [MEGABYTES..]
#
# The environment may name the program `variant_cost` as COST: then reading Variant bytes is counted too. And it may name
# the program `column_cost` as COLUMN_COST: then so are the values of columns. And `striping_cost` as STRIPING_COST: then so
# are the entries of rows. And `shredding_cost` as SHREDDING_COST: then so is shredding.
set -eu
here=$(cd "$(dirname "$0")" && pwd)
program=$(realpath "$1")
cost=${COST:-}
column_cost=${COLUMN_COST:-}
striping_cost=${STRIPING_COST:-}
shredding_cost=${SHREDDING_COST:-}
shift
sizes=${*:-10 100}
work=$(mktemp -d)
trap 'rm -rf "$work"' EXIT

# schemas that fit the documents of a shape
counts() { python3 -c "print(','.join(f'c{k:02}:' + ('string' if k % $1 else 'int64') for k in range(24)))"; }
records_schema='{id:int64,ts:string,user:{name:string,age:int8},amount:decimal(9,2),tags:[string]}'
kilo_schema="{id:int64,ts:string,site:string,room:string,rack:string,owner:string,model:string,note:string,$(counts 1),places:[{x:decimal(9,2),y:decimal(9,2),at:string}],tags:[string],values:[int16],ok:boolean,alarm:variant}"

# the least wall time in seconds of five runs, and the peak memory in KB. A run may write the file `new`
timed() {
    local least="" memory="" run
    for run in 1 2 3 4 5; do
        rm -f "$work/new"
        /usr/bin/time -f '%e %M' -o "$work/time" "$@" > "$work/out" < "$work/in"
        read -r wall peak < "$work/time"
        least=$(python3 -c "print(min($wall, ${least:-$wall}))")
        memory=$peak
    done
    echo "$least $memory"
}

# one row: the shape, jq's program, the words of a scan
row() {
    local shape=$1 program_of_jq=$2 size
    shift 2
    for size in $sizes; do
        python3 "$here/generate.py" "$shape" $((size * 1000000)) > "$work/in"
        read -r ours memory < <(timed "$program" scan "$@")
        if command -v jq > /dev/null; then
            read -r theirs _ < <(timed jq -c "$program_of_jq")
        else
            theirs=0
        fi
        python3 - "$shape" "$*" "$size" "$ours" "$memory" "$theirs" <<'P'
import sys
shape, words, size, ours, memory, theirs = sys.argv[1:]
ours, theirs = float(ours), float(theirs)
ratio = f"{ours / theirs:.2f}" if theirs else "-"
print(f"| {shape} | `{words}` | {size} | {ours:.2f} | {float(size) / max(ours, 0.01):.0f} | {int(memory) / 1000:.1f} | {theirs:.2f} | {ratio} |")
P
    done
}

echo "| input | scan | MB | vstore s | MB/s | peak MB | jq s | ratio |"
echo "|---|---|---|---|---|---|---|---|"
row numbers '.a' '$.a'
row records '.user.name' '$.user.name'
row records 'select(.amount > 990) | .id' --where '$.amount > 990' '$.id'
row records 'select(.amount > 99000) | .id' --where '$.amount > 99000' '$.id'
row records '.tags[0], .user.age, .ts' '$.tags[0]' '$.user.age' '$.ts'

# whole documents: as text, and as Variants in hex
echo
echo "| input | words | MB | vstore s | MB/s | peak MB |"
echo "|---|---|---|---|---|---|"
for shape in numbers records; do
    for size in $sizes; do
        python3 "$here/generate.py" "$shape" $((size * 1000000)) > "$work/in"
        for words in 'scan $' variant; do
            read -r ours memory < <(timed "$program" $words)
            python3 -c "print(f'| $shape | \`$words\` | $size | {$ours:.2f} | {$size / max($ours, 0.01):.0f} | {$memory / 1000:.1f} |')"
        done
    done
done

# documents into a file, and a query over it, beside sqlite3: a table of texts, plain or of valid JSON alone
has_sqlite() { command -v sqlite3 > /dev/null; }
imported() { echo "pragma journal_mode = off; pragma synchronous = off; create table docs (doc text$1)"; }
import_words=('.mode ascii' '.separator "\037" "\n"' '.import /dev/stdin docs')
valid=' check (json_valid(doc))'

echo
echo "| input | schema | MB | load s | MB/s | peak MB | file MB | sqlite3 s | with json_valid s | ratio |"
echo "|---|---|---|---|---|---|---|---|---|---|"
load_row() {
    local shape=$1 named=$2 schema=$3 size ours memory file plain=0 judged=0
    for size in $sizes; do
        python3 "$here/generate.py" "$shape" $((size * 1000000)) > "$work/in"
        read -r ours memory < <(timed "$program" load "$work/new" --schema "$schema")
        file=$(stat -c %s "$work/new")
        if has_sqlite; then
            read -r plain _ < <(timed sqlite3 "$work/new" "$(imported "")" "${import_words[@]}")
            read -r judged _ < <(timed sqlite3 "$work/new" "$(imported "$valid")" "${import_words[@]}")
        fi
        python3 -c "print(f'| $shape | $named | $size | {$ours:.2f} | {$size / max($ours, 0.01):.0f} | {$memory / 1000:.1f} | {$file / 1e6:.1f} | {$plain:.2f} | {$judged:.2f} | {$ours / max($judged, 0.01):.2f} |')"
    done
}
load_row records variant variant
load_row records "all fits" "$records_schema"
load_row kilo variant variant
load_row kilo "all fits" "$kilo_schema"

echo
echo "| input | words | schema | MB | query s | peak MB | scan s | sqlite3 s | beside scan | beside sqlite3 |"
echo "|---|---|---|---|---|---|---|---|---|---|"
# one row: the shape, the schema's name, the schema, what sqlite3 selects, the words of a query
query_row() {
    local shape=$1 named=$2 schema=$3 selected=$4 size ours memory lines theirs=0
    shift 4
    for size in $sizes; do
        python3 "$here/generate.py" "$shape" $((size * 1000000)) > "$work/in"
        rm -f "$work/file" "$work/db"
        "$program" load "$work/file" --schema "$schema" < "$work/in"
        read -r ours memory < <(timed "$program" query "$work/file" "$@")
        read -r lines _ < <(timed "$program" scan "$@")
        if has_sqlite; then
            sqlite3 "$work/db" "$(imported "")" "${import_words[@]}" < "$work/in" > /dev/null
            read -r theirs _ < <(timed sqlite3 "$work/db" "select $selected")
        fi
        python3 -c "print(f'| $shape | \`$*\` | $named | $size | {$ours:.2f} | {$memory / 1000:.1f} | {$lines:.2f} | {$theirs:.2f} | {$ours / max($lines, 0.01):.2f} | {$ours / max($theirs, 0.01):.2f} |')"
    done
}
one="json_extract(doc, '\$.user.name') from docs"
above="json_extract(doc, '\$.id') from docs where json_extract(doc, '\$.amount') > 99000"
for named in variant "all fits"; do
    schema=variant
    wide=variant
    if [ "$named" != variant ]; then
        schema=$records_schema
        wide=$kilo_schema
    fi
    query_row records "$named" "$schema" "$one" '$.user.name'
    query_row records "$named" "$schema" "$above" --where '$.amount > 99000' '$.id'
    query_row kilo "$named" "$wide" "json_extract(doc, '\$.room') from docs" '$.room'
done

if command -v jq > /dev/null; then
    echo
    echo "| line | vstore | jq |"
    echo "|---|---|---|"
    for number in 9007199254740993 12345678901234567890.12 0.1000000000000000055 1e-30; do
        echo "{\"a\":$number}" > "$work/in"
        echo "| \`{\"a\":$number}\` | \`$("$program" scan '$.a' < "$work/in")\` | \`$(jq -c '.a' < "$work/in")\` |"
    done
fi

# what one line of 1 MB takes: of records, of many members or items, and of arrays that are mostly brackets
echo
echo "| line of 1 MB | scan s | peak MB | variant s | peak MB |"
echo "|---|---|---|---|---|"
for shape in long wide items small deep; do
    python3 "$here/generate.py" "$shape" 1040000 > "$work/in"
    read -r scan held < <(timed "$program" scan '$')
    read -r ours memory < <(timed "$program" variant)
    python3 -c "print(f'| $shape | $scan | {$held / 1000:.1f} | $ours | {$memory / 1000:.1f} |')"
done

if command -v valgrind > /dev/null; then
    echo
    echo "| input | bytes | instructions per byte |"
    echo "|---|---|---|"
    spent_on() { valgrind --tool=callgrind --callgrind-out-file=/dev/null "$@" < "$work/in" 2>&1 > /dev/null | awk '/Collected/ {print $4}'; }
    collected() { spent_on "$program" "$@"; }
    count() { collected scan "$@"; }
    : > "$work/in"
    start=$(count '$.a')
    counted() {
        local shape=$1
        shift
        python3 "$here/generate.py" "$shape" 1000000 > "$work/in"
        bytes=$(stat -c %s "$work/in")
        echo "| $shape, \`$*\` | $bytes | $(( ($(count "$@") - start) / bytes )) |"
    }
    counted numbers '$.a'
    counted records '$.user.name'
    counted records --where '$.amount > 990' '$.id'
    counted records --where '$.amount > 99000' '$.id'
    counted records --where '$.tags[*] = "b" and not $.user.age < 30' '$.id' '$.user'
    # whole documents: as text, and as Variants in hex
    for shape in numbers records; do
        python3 "$here/generate.py" "$shape" 1000000 > "$work/in"
        bytes=$(stat -c %s "$work/in")
        for words in 'scan $' variant; do
            echo "| $shape, \`$words\` | $bytes | $(( ($(collected $words) - start) / bytes )) |"
        done
    done
    # one line of growing size: an array of objects, and an object of many members in no order
    for shape in long wide; do
        for size in 125000 250000 500000 1000000; do
            python3 "$here/generate.py" "$shape" "$size" > "$work/in"
            bytes=$(stat -c %s "$work/in")
            echo "| $shape | $bytes | $(( ($(count '$.a') - start) / bytes )) |"
        done
    done

    # files written and read, per byte of their documents; what a call takes without documents is taken off
    echo
    echo "| documents | schema | load | query of one path | query \`$\` | check | scan of the path | sqlite3 import | with json_valid | sqlite3 json_extract |"
    echo "|---|---|---|---|---|---|---|---|---|---|"
    file_row() {
        local shape=$1 named=$2 schema=$3 path=$4 cells="" base
        python3 "$here/generate.py" "$shape" 1000000 > "$work/in"
        bytes=$(stat -c %s "$work/in")
        rm -f "$work/file" "$work/db"*
        cells+=" $(( ($(spent_on "$program" load "$work/file" --schema "$schema") - start) / bytes ))"
        cells+=" $(( ($(spent_on "$program" query "$work/file" "$path") - start) / bytes ))"
        cells+=" $(( ($(spent_on "$program" query "$work/file" '$') - start) / bytes ))"
        cells+=" $(( ($(spent_on "$program" check "$work/file") - start) / bytes ))"
        cells+=" $(( ($(count "$path") - start) / bytes ))"
        if has_sqlite; then
            base=$(spent_on sqlite3 "$work/db0" "$(imported "")")
            cells+=" $(( ($(spent_on sqlite3 "$work/db" "$(imported "")" "${import_words[@]}") - base) / bytes ))"
            cells+=" $(( ($(spent_on sqlite3 "$work/db1" "$(imported "$valid")" "${import_words[@]}") - base) / bytes ))"
            cells+=" $(( ($(spent_on sqlite3 "$work/db" "select json_extract(doc, '$path') from docs") - base) / bytes ))"
        else
            cells+=" - - -"
        fi
        echo "| $shape | $named |$(printf ' %s |' $cells)"
    }
    file_row numbers variant variant '$.a'
    file_row records variant variant '$.user.name'
    file_row records "all fits" "$records_schema" '$.user.name'
    file_row kilo variant variant '$.room'
    file_row kilo "all fits" "$kilo_schema" '$.room'

    # row groups of one row each: what a group more costs, in the footer too
    echo
    echo "| row groups | instructions per group: load | query |"
    echo "|---|---|---|"
    for groups in 1000 4000 16000; do
        python3 -c "for n in range($groups): print('{\"n\":%d}' % n)" > "$work/in"
        rm -f "$work/file"
        cells=" $(( ($(spent_on "$program" load "$work/file" --group-rows 1 --schema '{n:int64}') - start) / groups ))"
        cells+=" $(( ($(spent_on "$program" query "$work/file" '$.n') - start) / groups ))"
        echo "| $groups |$(printf ' %s |' $cells)"
    done

    # reading the bytes of Variant values: judging and viewing them, and making their trees
    if [ -n "$cost" ]; then
        echo
        echo "| value | bytes | instructions per byte: view | view and tree |"
        echo "|---|---|---|---|"
        spent() { valgrind --tool=callgrind --callgrind-out-file=/dev/null "$cost" "$@" < "$work/in" 2>&1 > "$work/out" | awk '/Collected/ {print $4}'; }
        for shape in kilo records numbers; do
            python3 "$here/generate.py" "$shape" 1 > "$work/in"
            base=$(spent view 0)
            views=$(spent view 2000)
            trees=$(spent tree 2000)
            bytes=$(awk '{print $1}' "$work/out")
            python3 -c "print(f'| $shape | $bytes | {($views - $base) / 2000 / $bytes:.1f} | {($trees - $base) / 2000 / $bytes:.1f} |')"
        done
    fi

    # a million values of columns, read and written; start-up and the making of the values taken off
    if [ -n "$column_cost" ]; then
        echo
        echo "| a million values | instructions per value |"
        echo "|---|---|"
        turns() { valgrind --tool=callgrind --callgrind-out-file=/dev/null "$column_cost" "$1" "$2" 2>&1 > /dev/null | awk '/Collected/ {print $4}'; }
        for what in runs packed-1 packed-3 packed-17 write-levels read-integers write-integers read-texts write-texts read-page write-page; do
            python3 -c "print(f'| $what | {($(turns $what 1) - $(turns $what 0)) / 1000000:.1f} |')"
        done
    fi

    # rows split into entries, and put together from them; start-up and the making of the rows taken off, and of what puts
    # together the splitting
    if [ -n "$striping_cost" ]; then
        echo
        echo "| entries of 2,000 rows | entries | instructions per entry |"
        echo "|---|---|---|"
        entries() { valgrind --tool=callgrind --callgrind-out-file=/dev/null "$striping_cost" "$1" "$2" 2>&1 > "$work/out" | awk '/Collected/ {print $4}'; }
        for shape in flat lists; do
            start=$(entries "stripe-$shape" 0)
            split=$(entries "stripe-$shape" 1)
            count=$(awk '{print $1}' "$work/out")
            python3 -c "print(f'| stripe-$shape | $count | {($split - $start) / $count:.1f} |')"
            for what in $([ "$shape" = flat ] && echo flat one || echo lists); do
                base=$(entries "assemble-$what" 0)
                both=$(entries "assemble-$what" 1)
                count=$(awk '{print $1}' "$work/out")
                python3 -c "print(f'| assemble-$what | $count | {($both - $base - ($split - $start)) / $count:.1f} |')"
            done
        done
    fi

    # records shredded by a schema, and read again; start-up and what is made once taken off
    if [ -n "$shredding_cost" ]; then
        echo
        echo "| record, schema | bytes | instructions per byte: shred | read |"
        echo "|---|---|---|---|"
        shreds() { valgrind --tool=callgrind --callgrind-out-file=/dev/null "$shredding_cost" "$1" "$2" "$3" < "$work/in" 2>&1 > "$work/out" | awk '/Collected/ {print $4}'; }
        shredded_row() {
            local shape=$1 fits=$2 schema=$3 cost=""
            python3 "$here/generate.py" "$shape" 1 > "$work/in"
            for what in shred read; do
                cost="$cost $(( $(shreds $what 1000 "$schema") - $(shreds $what 0 "$schema") ))"
            done
            bytes=$(awk '{print $1}' "$work/out")
            python3 -c "print('| $shape, $fits fits | $bytes |' + ' |'.join(f' {int(n) / 1000 / $bytes:.1f}' for n in '$cost'.split()) + ' |')"
        }
        shredded_row records all "$records_schema"
        shredded_row records half '{id:int64,ts:int64,user:{name:string,age:boolean},amount:boolean,tags:[string]}'
        shredded_row records none '{id:string,ts:int64,user:[int8],amount:boolean,tags:{x:int8}}'
        shredded_row records variant variant
        shredded_row kilo all "$kilo_schema"
        shredded_row kilo half "{id:int64,ts:int64,site:string,room:int8,rack:string,owner:int8,model:string,note:int8,$(counts 2),places:[{x:decimal(9,2),y:string,at:int8}],tags:[int8],values:[int16],ok:boolean,alarm:variant}"
        shredded_row kilo variant variant
        # one leaf of a row of 50: the typed part of the field in the middle
        fields="{$(python3 -c "print(','.join(f'c{k:02}:int64' for k in range(24)))")}"
        echo '{"c12":7}' > "$work/in"
        echo
        echo "one leaf of a row of 50: $(( ($(shreds 27 1000 "$fields") - $(shreds 27 0 "$fields")) / 1000 )) instructions"
    fi

    # filters of growing size: of terms, of brackets, and of spaces; no input
    echo
    echo "| filter | bytes | instructions per byte |"
    echo "|---|---|---|"
    : > "$work/in"
    # one row: what there are so many of, and an expression of Python that makes the filter of n
    filters() {
        local of=$1 text=$2 n filter
        shift 2
        for n in "$@"; do
            filter=$(python3 -c "n = $n; print($text)")
            echo "| $n $of | ${#filter} | $(( ($(count --where "$filter" '$') - start) / ${#filter} )) |"
        done
    }
    filters terms '" or ".join("$.user.name = \"u%03d\"" % k for k in range(n))' 64 128 256
    filters brackets '"(" * n + "$ = 1" + ")" * n' 16 32 64
    filters spaces '"((($" + " " * n + "= 1)))"' 16000 32000 65000
    filters 'letters of a text' '"$ = \"" + "x" * n + "\""' 16000 32000 65000

    # one row of 64 members, asked for by more and more paths
    echo
    echo "| paths over 4,000 rows of 64 members | instructions per row and path |"
    echo "|---|---|"
    python3 -c "
row = '{' + ','.join(f'\"m{k:02}\":{k}' for k in range(64)) + '}'
for _ in range(4000): print(row)" > "$work/in"
    paths_to() { python3 -c "print(' '.join(f'\$.m{k:02}' for k in range($1)))"; }
    base=$(count $(paths_to 20))
    for paths in 31 42 53 64; do
        echo "| $paths, beside 20 | $(( ($(count $(paths_to "$paths")) - base) / 4000 / (paths - 20) )) |"
    done
fi
