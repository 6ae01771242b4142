#!/usr/bin/env bash
# Runs the built program on real files and compares standard output, standard error and status.
# The last line is 'N passed, N failed'.
set -u
. "$(dirname "${BASH_SOURCE[0]}")/helpers/comparing.sh"

# expect_routes NAME COUNT GRAPH QUERIES: in each order the routes are walks of the graph, as many as this, each of the distance's weight.
expect_routes() {
  local order
  for order in --deep ""; do
    "$root/chtab" dist --routes $order "$3" "$4" >routes.txt 2>err.txt
    compare "$1 $order, status" 0 "$?"
    compare "$1 $order, routes" "$2 routes" "$(python3 -m oracles.routes "$3" routes.txt 2>&1)"
    compare "$1 $order, distances" "$(python3 -m oracles.dijkstra "$3" "$4")" "$(grep '^d' routes.txt)"
  done
}

# expect_left NAME OUT WORD..: a reader that takes the first line of what the program writes on these words, and goes away: a write fails.
expect_left() {
  local name=$1 out=$2 statuses
  shift 2
  "$root/chtab" "$@" 2>err.txt | head -n 1 >out.txt
  statuses=("${PIPESTATUS[@]}")
  compare "$name, status" 3 "${statuses[0]}"
  compare "$name, standard output" "$out" "$(cat out.txt)"
  compare "$name, standard error" "chtab: cannot write after N bytes" "$(sed 's/[0-9][0-9]*/N/' err.txt)"
}

# expect_bytes NAME STATUS ERR WORD..: nothing on standard output, and exactly these bytes on standard error.
expect_bytes() {
  local name=$1 status=$2
  printf '%b' "$3" >wanted.txt
  shift 3
  "$root/chtab" "$@" >out.txt 2>err.txt
  compare "$name, status" "$status" "$?"
  compare "$name, bytes" "" "$(cmp out.txt /dev/null 2>&1; cmp err.txt wanted.txt 2>&1)"
}

# expect_same_saved NAME GRAPH QUERIES SOURCES TARGETS: a graph that is saved, in each order, gives the same routes and the same table.
expect_same_saved() {
  local order
  "$root/chtab" save --quick "$2" >quick.ch
  expect "$1, distances by the hierarchy saved --quick" 0 "$("$root/chtab" dist "$2" "$3")" "" dist --saved quick.ch "$2" "$3"
  expect "$1, table by the hierarchy saved --quick" 0 "$("$root/chtab" table "$2" "$4" "$5")" "" table --saved quick.ch "$2" "$4" "$5"
  for order in --deep ""; do
    "$root/chtab" save $order "$2" >same.ch
    compare "$1, saved $order, status" 0 "$?"
    expect "$1, routes by the hierarchy saved $order" 0 "$("$root/chtab" dist --routes $order "$2" "$3")" "" \
      dist --routes --saved same.ch "$2" "$3"
    expect "$1, table by the hierarchy saved $order" 0 "$("$root/chtab" table "$2" "$4" "$5")" "" table --saved same.ch "$2" "$4" "$5"
  done
}

# expect_saved NAME STATUS OUT ERR GRAPH QUERIES ORDER LEG..: routes by a saved hierarchy of this order and these legs.
expect_saved() {
  local name=$1 status=$2 out=$3 err=$4 graph=$5 queries=$6 order=$7
  shift 7
  { printf 'p ch %d %d\n' "$(wc -w <<<"$order")" "$#"; printf 'o %d\n' $order; printf 'l %s\n' "$@"; } >saved.ch
  expect "$name" "$status" "$out" "$err" dist --routes --saved saved.ch "$graph" "$queries"
}

# all_pairs GRAPH: the queries from each node of a graph to each node.
all_pairs() {
  awk '$1 == "p" { print "p aux sp p2p", $3 * $3; for (s = 1; s <= $3; s++) for (t = 1; t <= $3; t++) print "q", s, t }' "$1"
}

for example in first liechtenstein; do
  files=("$root/examples/$example.gr" "$root/examples/$example.p2p")
  answers=$(python3 -m oracles.dijkstra "${files[@]}")
  expect "example $example" 0 "$answers" "" dist "${files[@]}"
  expect "example $example, plain" 0 "$answers" "" dist --plain "${files[@]}"
done

python3 -c '
import random
draw = random.Random("two hundred queries")
print("p aux sp p2p 200")
for _ in range(200):
    print("q", draw.randint(1, 3137), draw.randint(1, 3137))
' >many.p2p
files=("$root/examples/liechtenstein.gr" many.p2p)
answers=$(python3 -m oracles.dijkstra "${files[@]}")
expect "two hundred queries" 0 "$answers" "" dist "${files[@]}"
expect "two hundred queries, plain" 0 "$answers" "" dist --plain "${files[@]}"
expect "two hundred queries, at most one hop" 0 "$answers" "" dist --hops 1 "${files[@]}"

for workers in 2 64; do
  expect "two hundred queries, $workers workers" 0 "$answers" "" dist --workers "$workers" --piece 7 "${files[@]}"
done

head -n 51 many.p2p | sed '1s/200/50/' >fifty.p2p
expect_routes "fifty routes" 50 "$root/examples/liechtenstein.gr" fifty.p2p

python3 -c '
print("p sp 3000 2999")
for node in range(1, 3000):
    print("a", node, node + 1, node % 7)
' >path.gr
printf 'p aux sp p2p 2\nq 1 3000\nq 3000 1\n' >path.p2p
expect_routes "a route of thousands of arcs" 1 path.gr path.p2p
compare "a route of thousands of arcs, length" "r 2999" "$(sed -n 2p routes.txt)"

python3 -c '
import random
draw = random.Random("thirty by forty")
for name, count in ("from.ss", 30), ("to.ss", 40):
    nodes = [draw.randint(1, 3137) for _ in range(count)]
    with open(name, "w") as file:
        print("p aux sp ss", count, file=file)
        for node in nodes:
            print("s", node, file=file)
with open("pairs.p2p", "w") as file:
    lists = [[line.split()[1] for line in open(name) if line.startswith("s ")] for name in ("from.ss", "to.ss")]
    print("p aux sp p2p 1200", file=file)
    for source in lists[0]:
        for target in lists[1]:
            print("q", source, target, file=file)
'
lg=$root/examples/liechtenstein.gr
table=$("$root/chtab" dist "$lg" pairs.p2p | awk '{ row = row " " $4; if (NR % 40 == 0) { print "t " $2 row; row = "" } }')
for workers in 1 2; do
  expect "thirty by forty cells, $workers workers" 0 "$table" "" table --workers "$workers" --piece 4 "$lg" from.ss to.ss
done

for most in 0 60000 300000 1152921504606846976; do
  near=$(awk -v most="$most" '{ for (i = 3; i <= NF; i++) if ($i > most) $i = "-"; print }' <<<"$table")
  for workers in 1 2; do
    expect "thirty by forty cells within $most, $workers workers" 0 "$near" "" \
      table --within "$most" --workers "$workers" "$lg" from.ss to.ss
  done
done
expect_same_saved "Liechtenstein" "$lg" fifty.p2p from.ss to.ss
compare "Liechtenstein, saved by two workers" "$(cksum <same.ch)" "$("$root/chtab" save --workers 2 --piece 7 "$lg" | cksum)"
for order in --deep --quick --customizable; do
  compare "Liechtenstein, saved $order by two workers" "$("$root/chtab" save $order "$lg" | cksum)" \
    "$("$root/chtab" save $order --workers 2 --piece 7 "$lg" | cksum)"
done
expect "Liechtenstein, saved, two workers" 0 "$table" "" table --workers 2 --saved same.ch "$lg" from.ss to.ss
expect "Liechtenstein, saved, within a limit" 0 "$("$root/chtab" table --within 60000 "$lg" from.ss to.ss)" "" \
  table --within 60000 --saved same.ch "$lg" from.ss to.ss

# expect_near NAME WORD..: the near rows of these words, as an independent program makes them, also by the hierarchy in same.ch and two workers.
expect_near() {
  local name=$1 rows
  shift
  rows=$(python3 -m oracles.nearest "$@")
  expect "$name" 0 "$rows" "" near "$@"
  expect "$name, saved, two workers" 0 "$rows" "" near --saved same.ch --workers 2 --piece 7 "$@"
}

for direction in --from ""; do
  for limits in "" "--count 3" "--within 60000" "--within 300000 --count 65536"; do
    expect_near "near rows $direction $limits" $direction $limits "$lg" from.ss to.ss
  done
  expect_near "near rows $direction of all nodes" $direction --count 2 --within 900000 --all "$lg" to.ss
done

printf 'p sp 3 2\na 1 2 4\na 2 3 5\n' >graph.gr
python3 -c '
for name, count in ("most.ss", 2048), ("more.ss", 2049):
    with open(name, "w") as file:
        print("p aux sp ss", count, file=file)
        print("s 1\n" * count, end="", file=file)
'
"$root/chtab" table graph.gr most.ss most.ss >cells.txt
compare "the most cells, status" 0 "$?"
compare "the most cells, lines" 2048 "$(grep -cxE 't 1( 0){2048}' cells.txt)"
expect_left "the most cells, to a reader that goes away" "$(head -n 1 cells.txt)" table graph.gr most.ss most.ss
expect "too many cells" 1 "" "chtab: too many cells" table graph.gr more.ss most.ss
list_of 1 2 >two.ss
list_of 4 >four.ss
printf 'p aux sp ss 65537\n' >many.ss
"$root/chtab" near --count 1 graph.gr more.ss most.ss >rows.txt
compare "near rows of many cells" "2049 n 1 1 1 0" "$(uniq -c rows.txt | sed 's/^ *//')"
expect "a source of near rows out of range" 1 "" "chtab: sources line 2: node out of range" near graph.gr four.ss two.ss
expect "a target of near rows out of range" 1 "" "chtab: targets line 2: node out of range" near --all graph.gr four.ss
expect "missing targets of near rows" 3 "" "chtab: cannot read targets" near --all --count 3 graph.gr missing.ss
expect "a source out of range" 1 "" "chtab: sources line 2: node out of range" table graph.gr four.ss two.ss
expect "a target out of range" 1 "" "chtab: targets line 2: node out of range" table graph.gr two.ss four.ss
expect "too many sources" 1 "" "chtab: sources line 1: size too large" table graph.gr many.ss two.ss
expect "missing sources" 3 "" "chtab: cannot read sources" table graph.gr missing.ss two.ss
expect "a folder as targets" 3 "" "chtab: cannot read targets" table graph.gr two.ss "$root"
expect "a table" 0 "t 1 0 4
t 2 - 0" "" table graph.gr two.ss two.ss

list_of 1 1 3 >sources.ss
list_of 3 2 >targets.ss
list_of 1 >one.ss
list_of 3 >three.ss
list_of 5 >five.ss
list_of 4 3 >down.ss
printf 'p sp 3 3\na 1 2 0\na 2 3 0\na 1 3 0\n' >zero.gr
printf 'p sp 5 5\na 1 2 1\na 2 3 1\na 3 4 1\na 4 5 1\na 5 1 1\n' >ring.gr
whole=$'t 1 9 4\nt 1 9 4\nt 3 0 -'
files=(graph.gr sources.ss targets.ss)
for workers in 1 2; do
  tool=(table --workers "$workers")
  expect "a limit leaves cells out, $workers workers" 0 $'t 1 - 4\nt 1 - 4\nt 3 0 -' "" "${tool[@]}" --within 8 "${files[@]}"
  expect "a limit is reached, $workers workers" 0 "$whole" "" "${tool[@]}" --within 9 "${files[@]}"
  expect "the greatest limit, $workers workers" 0 "$whole" "" "${tool[@]}" --within 1152921504606846976 "${files[@]}"
  expect "a limit of 0, $workers workers" 0 $'t 1 - -\nt 1 - -\nt 3 0 -' "" "${tool[@]}" --within 0 "${files[@]}"
  expect "a limit of 0 and weights of 0, $workers workers" 0 "t 1 0" "" "${tool[@]}" --within 0 zero.gr one.ss three.ss
  expect "a limit on a ring, $workers workers" 0 "t 5 - 3" "" "${tool[@]}" --within 3 ring.gr five.ss down.ss
done
expect_words "a limit past the greatest" 2 err "1152921504606846977" table --within 1152921504606846977 "${files[@]}"
expect_words "a limit below 0" 2 err "-1" table --within -1 "${files[@]}"
expect_words "a limit that is no number" 2 err "'x'" table --within x "${files[@]}"
expect_words "a limit for dist" 2 err "--within" dist --within 8 graph.gr queries.p2p

g=$root/examples/first.gr
q=$root/examples/first.p2p
ch=$root/examples/first.ch

printf 'p sp 0 0\n' >none.gr
printf 'p sp 4 6\na 1 2 1\na 2 1 1\na 1 3 1\na 3 1 1\na 1 4 1\na 4 1 1\n' >star.gr
printf 'p sp 4 4\na 1 2 1\na 2 4 1\na 1 3 1\na 3 4 1\n' >square.gr
printf 'p sp 4 4\na 1 2 0\na 2 3 0\na 3 1 0\na 3 4 2\n' >loop.gr
printf 'p sp 5 5\na 1 2 1\na 2 3 1\na 1 4 0\na 4 5 0\na 5 3 0\n' >around.gr
list_of >nothing.ss
list_of 1 2 3 >nodes.ss
all_pairs none.gr >none.p2p
expect_same_saved "no node" none.gr none.p2p nothing.ss nothing.ss
for name in graph zero ring star square loop around; do
  all_pairs $name.gr >$name.p2p
  expect_same_saved "the graph $name" $name.gr $name.p2p nodes.ss nodes.ss
done
expect "example first, saved" 0 "$(cat "$ch")" "" save "$g"
expect "example first, by the saved file" 0 "$(python3 -m oracles.dijkstra "$g" "$q")" "" dist --saved "$ch" "$g" "$q"
expect "no node, saved" 0 "p ch 0 0" "" save --workers 2 none.gr

routes=$("$root/chtab" dist --routes "$g" "$q")
no="chtab: saved hierarchy refused:"
one="1 2 4 1 0"
two="2 3 5 1 0"
expect_saved "another order" 0 "$routes" "" "$g" "$q" "1 3 2" "$one" "$two"
expect_saved "a shortcut is missing" 1 "" "$no lower" "$g" "$q" "2 1 3" "$one" "$two"
expect_saved "the shortcut is there" 0 "$routes" "" "$g" "$q" "2 1 3" "$one" "$two" "1 3 9 2 2"
expect_saved "a shortcut that is too cheap" 1 "" "$no middle" "$g" "$q" "2 1 3" "$one" "$two" "1 3 8 2 2"
expect_saved "a leg without an arc" 1 "" "$no base" "$g" "$q" "2 1 3" "$one" "$two" "1 3 9 2 0"
expect_saved "a leg of too many arcs" 1 "" "$no bound" "$g" "$q" "2 1 3" "$one" "$two" "1 3 9 3 2"
expect_saved "an arc without a leg" 1 "" "$no arc" "$g" "$q" "1 3 2" "$one"
expect_saved "a leg twice" 1 "" "$no pair" "$g" "$q" "1 3 2" "$one" "$two" "$one"
expect_saved "a node twice" 1 "" "$no order" "$g" "$q" "1 1 2" "$one" "$two"

star_legs=("2 1 1 1 0" "1 2 1 1 0" "1 3 1 1 0" "1 4 1 1 0" "3 1 1 1 0" "4 1 1 1 0" "3 4 2 2 1" "4 3 2 2 1")
expect_saved "a star" 0 "$("$root/chtab" dist --routes star.gr star.p2p)" "" star.gr star.p2p "2 1 3 4" "${star_legs[@]}"
expect "a star, saved" 0 "$(cat saved.ch)" "" save star.gr
words=(arc arc middle middle middle middle lower lower)
for place in "${!star_legs[@]}"; do
  expect_saved "a star without its leg $place" 1 "" "$no ${words[place]}" star.gr star.p2p "2 1 3 4" \
    "${star_legs[@]:0:place}" "${star_legs[@]:place+1}"
done

# refused_saved NAME LINE SAVED: this text as saved hierarchy is refused with this line, by dist and by table.
refused_saved() {
  printf "$3" >saved.ch
  expect "$1" 1 "" "chtab: $2" dist --saved saved.ch "$g" "$q"
  expect "$1, table" 1 "" "chtab: $2" table --saved saved.ch "$g" one.ss three.ss
}

refused_saved "saved: no line" "saved line 1: no problem line" ''
refused_saved "saved: an unknown line" "saved line 1: unknown line" 'a 1 2 4\n'
refused_saved "saved: a bad problem line" "saved line 1: bad problem line" 'p sp 3 2\n'
refused_saved "saved: a second problem line" "saved line 2: second problem line" 'p ch 3 0\np ch 3 0\n'
refused_saved "saved: another number of nodes" "saved line 1: size too large" 'p ch 2 0\n'
refused_saved "saved: too many legs" "saved line 1: size too large" 'p ch 3 1125899906842625\n'
refused_saved "saved: as many legs as may be" "saved line 2: too few lines" 'p ch 3 1125899906842624\n'
refused_saved "saved: a bad node line" "saved line 2: bad line" 'p ch 3 0\no 1 2\n'
refused_saved "saved: a bad leg line" "saved line 2: bad line" 'p ch 3 1\nl 1 2 4 1\n'
refused_saved "saved: too many nodes" "saved line 5: too many lines" 'p ch 3 0\no 1\no 2\no 3\no 3\n'
refused_saved "saved: a leg too many" "saved line 2: too many lines" 'p ch 3 0\nl 1 2 4 1 0\n'
refused_saved "saved: no such node" "saved line 2: node out of range" 'p ch 3 0\no 4\n'
refused_saved "saved: a leg to no node" "saved line 2: node out of range" 'p ch 3 1\nl 1 0 4 1 0\n'
refused_saved "saved: no such middle" "saved line 2: node out of range" 'p ch 3 1\nl 1 2 4 1 4\n'
refused_saved "saved: a leg too heavy" "saved line 2: weight too large" 'p ch 3 1\nl 1 2 1152921504606846977 1 0\n'
refused_saved "saved: a leg of too many arcs" "saved line 2: weight too large" 'p ch 3 1\nl 1 2 4 33554433 0\n'
refused_saved "saved: too few nodes" "saved line 4: too few lines" 'p ch 3 0\no 1\no 2\n'
refused_saved "saved: too few legs" "saved line 5: too few lines" 'p ch 3 1\no 1\no 2\no 3\n'

printf 'p\n' >bad.txt
expect_bytes "a refused graph, to the last byte" 1 'chtab: graph line 1: bad problem line\n' dist bad.txt "$q"
expect_bytes "a refused word, to the last byte" 2 'chtab: a word is not UTF-8\n' dist "$g" $'\xff'
expect "the graph is judged before the saved hierarchy" 1 "" "chtab: graph line 1: bad problem line" dist --saved bad.txt bad.txt bad.txt
expect "the saved hierarchy is judged before the queries" 1 "" "chtab: saved line 1: bad problem line" dist --saved bad.txt "$g" bad.txt
expect_saved "it is checked before the queries" 1 "" "$no order" "$g" bad.txt "1 1 2" "$one" "$two"
expect "it is judged before the sources" 1 "" "chtab: saved line 1: bad problem line" table --saved bad.txt "$g" bad.txt bad.txt
expect "then the queries are judged" 1 "" "chtab: queries line 1: bad problem line" dist --saved "$ch" "$g" bad.txt
expect "a missing graph, and no saved hierarchy" 3 "" "chtab: cannot read graph" dist --saved missing.ch missing.gr missing.p2p
expect "a missing hierarchy" 3 "" "chtab: cannot read saved" dist --saved missing.ch "$g" missing.p2p
expect "a missing hierarchy, table" 3 "" "chtab: cannot read saved" table --saved missing.ch "$g" missing.ss missing.ss
expect "a missing order" 3 "" "chtab: cannot read order" save --fresh 7 --like missing.ch "$g"
expect "a missing order, behind a sign of equality" 3 "" "chtab: cannot read order" save --like=missing.ch --fresh=7 "$g"
expect "a folder as saved hierarchy" 3 "" "chtab: cannot read saved" dist --saved "$root" "$g" "$q"
expect "missing queries, and a saved hierarchy" 3 "" "chtab: cannot read queries" dist --saved "$ch" "$g" missing.p2p
expect "a missing graph to save" 3 "" "chtab: cannot read graph" save missing.gr
expect "a folder to save" 3 "" "chtab: cannot read graph" save "$root"
expect "a refused graph to save" 1 "" "chtab: graph line 1: bad problem line" save bad.txt
expect "plain distances read no saved hierarchy" 0 "$("$root/chtab" dist "$g" "$q")" "" dist --plain --saved missing.ch "$g" "$q"
expect "plain distances read no order" 0 "$("$root/chtab" dist "$g" "$q")" "" dist --plain --like missing.ch "$g" "$q"
expect "a saved hierarchy leaves hops out" 0 "$routes" "" dist --routes --hops 1 --saved "$ch" "$g" "$q"
expect_words "a saved hierarchy to save" 2 err "--saved" save --saved "$ch" "$g"
expect_words "two files to save" 2 err "'$q'" save "$g" "$q"
expect_words "no saved file" 2 err "--saved" dist --saved
expect_words "help of save" 0 out "chtab save --deep roads.gr" save --help

expect "a missing graph" 3 "" "chtab: cannot read graph" dist --plain missing.gr "$q"
expect "missing queries" 3 "" "chtab: cannot read queries" dist --plain "$g" missing.p2p
expect "a folder as graph" 3 "" "chtab: cannot read graph" dist --plain "$root" "$q"
expect "a folder as queries" 3 "" "chtab: cannot read queries" dist --plain "$g" "$root"

"$root/chtab" dist --plain "$g" "$q" >/dev/full 2>err.txt
compare "a full device, status" 3 "$?"
compare "a full device, standard error" "chtab: cannot write after 0 bytes" "$(cat err.txt)"
"$root/chtab" save "$g" >/dev/full 2>err.txt
compare "a full device for a hierarchy, status" 3 "$?"
compare "a full device for a hierarchy, standard error" "chtab: cannot write after 0 bytes" "$(cat err.txt)"

python3 - "$root/chtab" "$g" "$q" 2>err.txt <<'PYTHON'
import os, subprocess, sys
read_end, write_end = os.pipe()
os.close(read_end)
sys.exit(subprocess.run([sys.argv[1], "dist", "--plain", *sys.argv[2:]], stdout=write_end).returncode)
PYTHON
compare "a closed pipe, status" 3 "$?"
compare "a closed pipe, standard error" "chtab: cannot write after 0 bytes" "$(cat err.txt)"

# Only a terminal is told which files can't be read.
python3 - "$root/chtab" dist --saved "$root" missing.gr missing.p2p >out.txt <<'PYTHON'
import os, pty, subprocess, sys
mine, its = pty.openpty()
status = subprocess.run(sys.argv[1:], stdout=subprocess.DEVNULL, stderr=its).returncode
print(os.read(mine, 65536).decode().replace("\r\n", "\n"), end="")
sys.exit(status)
PYTHON
compare "missing files, told to a terminal, status" 3 "$?"
compare "missing files, told to a terminal" "chtab: $root: this is a folder
chtab: missing.gr: there is no such file
chtab: missing.p2p: there is no such file
chtab: cannot read graph" "$(cat out.txt)"

# Reads of the program itself, without the script that starts it, by a library that is loaded before it: the one of `refusals.py`.
program=$root/crates/chtab/out/chtab
"$(dirname "$(rt doc)")/toolchain/bin/clang" -fuse-ld=lld -shared -fPIC -O2 -nostdlib -o refusing.so "$root/tests/helpers/refusing.c"

# expect_read NAME STATUS OUT ERR READ ERROR WORD..: the program on these words, where a read has this error: the one of this number, counted from 1.
expect_read() {
  local name=$1 status=$2 out=$3 err=$4 read=$5 error=$6
  shift 6
  LD_PRELOAD=$PWD/refusing.so REFUSE_READ=$read REFUSE_WITH=$error "$program" "$@" >out.txt 2>err.txt
  compare "$name, status" "$status" "$?"
  compare "$name, standard output" "$out" "$(cat out.txt)"
  compare "$name, standard error" "$err" "$(cat err.txt)"
}

# Two reads take the graph: the second finds its end. Then two reads take each other file, in order. The numbers of errors are those of Linux.
interrupted=4
device_failed=5
answers=$("$root/chtab" dist "$g" "$q")
for read in 1 2 3 4; do
  expect_read "read $read is interrupted" 0 "$answers" "" $read $interrupted dist "$g" "$q"
done
expect_read "a graph that can't be read" 3 "" "chtab: cannot read graph" 1 $device_failed dist "$g" "$q"
expect_read "queries that can't be read" 3 "" "chtab: cannot read queries" 3 $device_failed dist "$g" "$q"
expect_read "queries that can't be read to their end" 3 "" "chtab: cannot read queries" 4 $device_failed dist "$g" "$q"
expect_read "a saved hierarchy that can't be read" 3 "" "chtab: cannot read saved" 3 $device_failed dist --saved "$ch" "$g" "$q"
expect_read "a saved hierarchy, and queries that can't be read" 3 "" "chtab: cannot read queries" 5 $device_failed dist --saved "$ch" "$g" "$q"
expect_read "targets that can't be read" 3 "" "chtab: cannot read targets" 5 $device_failed table "$g" one.ss three.ss

printf 'q 1 3\nt 1 2\ns 2\ns 3\ns 1\n' >requests.txt
expect "requests" 0 $'d 1 3 9\nt 2 5 -' "" ask --saved "$ch" "$g" <requests.txt
expect "requests, by a hierarchy that is built" 0 $'d 1 3 9\nt 2 5 -' "" ask "$g" <requests.txt
expect "requests, with routes and a limit" 0 $'d 1 3 9\nr 2\na 1 2 4\na 2 3 5\nt 2 - -' "" ask --routes --deep --within 4 "$g" <requests.txt
expect "requests with options of their own" 0 $'d 1 3 9\nr 2\na 1 2 4\na 2 3 5\nd 1 3 9\nt 1 -\nn 1 1 2 4\nn 1 2 2 4 3 9' "" ask "$g" < <(printf 'r 1 3\nq 1 3\nt 1 1 8\ns 1\ns 3\np 2 0\ns 3\ns 2\nn 1 8\nn 1\n')
expect "no request" 0 "" "" ask "$g" </dev/null
expect "a faulty request" 1 "d 1 3 9" "chtab: request line 3: node out of range" ask "$g" < <(printf 'q 1 3\n\nq 1 4\nq 1 3\n')
expect "a table that is cut short" 1 "" "chtab: request line 4: too few lines" ask "$g" < <(printf 't 1 2\ns 2\ns 3\n')
expect "requests for too many cells" 1 "d 1 3 9" "chtab: request line 2: too many cells" ask "$g" < <(printf 'q 1 3\nt 4096 1025\n')
expect "a folder as requests" 3 "" "chtab: cannot read requests" ask "$g" <"$root"
expect "a missing graph, and requests" 3 "" "chtab: cannot read graph" ask missing.gr <requests.txt
expect "a missing hierarchy, and requests" 3 "" "chtab: cannot read saved" ask --saved missing.ch "$g" <requests.txt
expect "a refused graph, and requests" 1 "" "chtab: graph line 1: bad problem line" ask bad.txt <requests.txt
expect_words "a file of requests" 2 err "'requests.txt'" ask "$g" requests.txt
expect_words "requests without a graph" 2 err "GRAPH" ask
expect_words "requests, plain" 2 err "--plain" ask --plain "$g"
expect_words "help of ask" 0 out "chtab ask" ask --help
"$root/chtab" ask "$g" <requests.txt >/dev/full 2>err.txt
compare "a full device for answers, status" 3 "$?"
compare "a full device for answers, standard error" "chtab: cannot write after 0 bytes" "$(cat err.txt)"
yes 'q 1 3' | head -n 50000 >long.txt
expect_left "answers to a reader that goes away" "d 1 3 9" ask --saved "$ch" "$g" <long.txt
expect_left "a hierarchy to a reader that goes away" "$("$root/chtab" save "$lg" | sed -n 1p)" save "$lg"
{ echo 'p aux sp p2p 50000'; cat long.txt; } >long.p2p
expect_left "distances to a reader that goes away" "d 1 3 9" dist "$g" long.p2p

# expect_progress NAME LINE WORD..: with --progress the program writes what it writes without, and each line of the errors has this form.
expect_progress() {
  local name=$1 line=$2
  shift 2
  "$root/chtab" "$@" >plain.txt 2>err.txt <requests.txt
  compare "$name, no progress" "" "$(cat err.txt)"
  "$root/chtab" "$@" --progress >out.txt 2>err.txt <requests.txt
  compare "$name with progress, status" 0 "$?"
  compare "$name with progress, standard output" "$(cksum <plain.txt)" "$(cksum <out.txt)"
  compare "$name with progress, first line" "$line" "$(sed -n 1p err.txt)"
  compare "$name with progress, other lines" "" "$(grep -vE '^chtab: [a-z ]+, [0-9,]+ of [0-9,]+ [a-z]+(, about [0-9]+ [a-z]+ left)?$' err.txt)"
  "$root/chtab" "$@" --progress >out.txt 2>/dev/full <requests.txt
  compare "$name with progress that is refused, status" 0 "$?"
  compare "$name with progress that is refused, standard output" "$(cksum <plain.txt)" "$(cksum <out.txt)"
  "$root/chtab" "$@" --progress >out.txt 2>&- <requests.txt
  compare "$name with closed errors, status" 0 "$?"
  compare "$name with closed errors, standard output" "$(cksum <plain.txt)" "$(cksum <out.txt)"
}

reads="chtab: reading, 0 of 1 files"
expect_progress "dist" "$reads" dist --workers 2 "$lg" fifty.p2p
expect_progress "dist, plain" "$reads" dist --plain "$g" "$q"
expect_progress "table" "$reads" table "$lg" from.ss to.ss
expect_progress "near" "$reads" near --count 3 "$lg" from.ss to.ss
expect_progress "save" "$reads" save "$lg"
expect_progress "ask" "$reads" ask "$g"
expect_progress "dist, saved" "chtab: reading, 0 of 2 files" dist --saved "$ch" "$g" "$q"
expect "a fault after progress" 1 "" "$reads
chtab: graph line 1: bad problem line" save --progress bad.txt

expect_words "help" 0 out "chtab dist" --help
expect_words "help of dist" 0 out "GRAPH" dist --help
expect_words "an unknown option" 2 err "--fast" dist --fast "$g" "$q"
expect_words "help of table" 0 out "SOURCES" table --help
expect_words "too many workers" 2 err "65" dist --workers 65 "$g" "$q"
expect_words "a piece of nothing" 2 err "0" table --piece 0 "$g" "$q" "$q"
expect_words "a table with routes" 2 err "--routes" table --routes "$g" "$q" "$q"
expect_words "too many hops" 2 err "17" dist --hops 17 "$g" "$q"
expect_words "no subcommand" 2 err "subcommand"
expect_words "a missing argument" 2 err "QUERIES" dist --plain "$g"
expect_words "a word that is no UTF-8" 2 err "" dist --plain "$g" $'\xff'

told
