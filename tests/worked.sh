#!/usr/bin/env bash
# Runs the built program on small files whose answers, hierarchies and faults were worked by hand.
# The last line is 'N passed, N failed'.
set -u
. "$(dirname "${BASH_SOURCE[0]}")/helpers/comparing.sh"

# expect_worked NAME GRAPH QUERIES TEXT [HIERARCHY [DEEP]]: routes and distances that were worked by hand, in each way, and the hierarchies by
# the difference and by depth. In each text a comma stands for a line feed.
expect_worked() {
  local text=${4//,/$'\n'}
  tr , '\n' <<<"$2" >worked.gr
  tr , '\n' <<<"$3" >worked.p2p
  expect "$1, routes" 0 "$text" "" dist --routes worked.gr worked.p2p
  expect "$1, distances" 0 "$(grep '^d' <<<"$text")" "" dist worked.gr worked.p2p
  expect "$1, plain" 0 "$(grep '^d' <<<"$text")" "" dist --plain --routes worked.gr worked.p2p
  [ -z "${5-}" ] || expect "$1, saved" 0 "${5//,/$'\n'}" "" save worked.gr
  [ -z "${6-}" ] || expect "$1, saved by depth" 0 "${6//,/$'\n'}" "" save --deep worked.gr
}

# refused NAME LINE GRAPH QUERIES: these texts as files are refused with this line, and nothing is written.
refused() {
  printf "$3" >graph.gr
  printf "$4" >queries.p2p
  expect "$1" 1 "" "chtab: $2" dist --plain graph.gr queries.p2p
}

printf 'p\n' >bad.txt
printf 'p sp 0 0\n' >none.gr
printf 'p aux sp p2p 0\n' >none.p2p
printf 'p sp 5 5\na 1 2 1\na 2 3 1\na 3 4 1\na 4 5 1\na 5 1 1\n' >ring.gr
list_of >nothing.ss
list_of 1 >one.ss

small='p sp 2 1\na 1 2 3\n'
none='p aux sp p2p 0\n'
refused "no problem line" "graph line 1: no problem line" '' "$none"
refused "an unknown line" "graph line 2: unknown line" 'p sp 1 1\narc 1 1 1\n' "$none"
refused "a bad problem line" "graph line 1: bad problem line" 'p sp 2\n' "$none"
refused "a second problem line" "graph line 2: second problem line" 'p sp 1 0\np sp\n' "$none"
refused "an item before the problem line" "graph line 1: no problem line" 'a 1 2 3\n' "$none"
refused "a bad line" "graph line 2: bad line" 'p sp 2 1\na 1 2 -3\n' "$none"
refused "a node out of range" "graph line 2: node out of range" 'p sp 2 1\na 1 3 5\n' "$none"
refused "a weight too large" "graph line 2: weight too large" 'p sp 2 1\na 1 2 576460752303423489\n' "$none"
refused "a size too large" "graph line 1: size too large" 'p sp 33554433 0\n' "$none"
refused "too many lines" "graph line 3: too many lines" 'p sp 2 1\na 1 2 3\na 1 2 3\n' "$none"
refused "too few lines" "graph line 3: too few lines" 'p sp 2 2\na 1 2 3\n' "$none"
refused "a query out of range" "queries line 2: node out of range" 'p sp 0 0\n' 'p aux sp p2p 1\nq 1 1\n'
refused "a problem line of another kind" "queries line 1: bad problem line" "$small" 'p aux sp ss 1\nq 1 2\n'
refused "too few queries" "queries line 3: too few lines" "$small" 'p aux sp p2p 2\nq 1 2\n'
refused "the graph is judged first" "graph line 1: bad problem line" 'p\n' 'p\n'

printf 'c any bytes\r\n\np  sp\t2 1\r\na 1 02 007' >graph.gr
printf 'p aux sp p2p 1\nq 1 2' >queries.p2p
expect "blanks, comments and no last line feed" 0 "d 1 2 7" "" dist --plain graph.gr queries.p2p
printf 'p sp 0 0\n' >graph.gr
printf "$none" >queries.p2p
expect "no query" 0 "" "" dist --plain graph.gr queries.p2p

expect_worked "parallel arcs, a loop and an empty route" "p sp 2 4,a 1 2 7,a 1 2 3,a 1 2 5,a 1 1 5" "p aux sp p2p 2,q 1 2,q 1 1" \
  "d 1 2 3,r 1,a 1 2 3,d 1 1 0,r 0"
expect_worked "a star" "p sp 4 6,a 1 2 1,a 2 1 1,a 1 3 1,a 3 1 1,a 1 4 1,a 4 1 1" "p aux sp p2p 1,q 3 4" "d 3 4 2,r 2,a 3 1 1,a 1 4 1" "" \
  "p ch 4 6,o 2,o 3,o 4,o 1,l 2 1 1 1 0,l 1 2 1 1 0,l 3 1 1 1 0,l 1 3 1 1 0,l 4 1 1 1 0,l 1 4 1 1 0"
expect_worked "of two nodes where paths meet the lesser is taken" "p sp 4 4,a 1 2 1,a 2 4 1,a 1 3 1,a 3 4 1" "p aux sp p2p 1,q 1 4" \
  "d 1 4 2,r 2,a 1 2 1,a 2 4 1" "p ch 4 4,o 1,o 4,o 2,o 3,l 1 2 1 1 0,l 1 3 1 1 0,l 2 4 1 1 0,l 3 4 1 1 0"
expect_worked "at weight 0 the fewest arcs are taken" "p sp 3 3,a 1 2 0,a 2 3 0,a 1 3 0" "p aux sp p2p 1,q 1 3" \
  "d 1 3 0,r 1,a 1 3 0" "p ch 3 3,o 1,o 2,o 3,l 1 2 0 1 0,l 1 3 0 1 0,l 2 3 0 1 0"
expect_worked "no node repeats" "p sp 4 4,a 1 2 0,a 2 3 0,a 3 1 0,a 3 4 2" "p aux sp p2p 1,q 1 4" \
  "d 1 4 2,r 3,a 1 2 0,a 2 3 0,a 3 4 2" "p ch 4 5,o 1,o 2,o 3,o 4,l 1 2 0 1 0,l 3 1 0 1 0,l 2 3 0 1 0,l 3 2 0 2 1,l 3 4 2 1 0" \
  "p ch 4 5,o 4,o 1,o 2,o 3,l 3 4 2 1 0,l 1 2 0 1 0,l 3 1 0 1 0,l 2 3 0 1 0,l 3 2 0 2 1"
expect_worked "the fewer arcs win over the lesser number" "p sp 5 5,a 1 5 0,a 5 3 0,a 1 2 0,a 2 4 0,a 4 3 0" "p aux sp p2p 1,q 1 3" \
  "d 1 3 0,r 2,a 1 5 0,a 5 3 0" "p ch 5 5,o 1,o 3,o 2,o 4,o 5,l 1 2 0 1 0,l 1 5 0 1 0,l 4 3 0 1 0,l 5 3 0 1 0,l 2 4 0 1 0"
around="p ch 5 5,o 1,o 3,o 4,o 2,o 5,l 1 2 1 1 0,l 1 4 0 1 0,l 2 3 1 1 0,l 5 3 0 1 0,l 4 5 0 1 0"
expect_worked "a way around at weight 0" "p sp 5 5,a 1 2 1,a 2 3 1,a 1 4 0,a 4 5 0,a 5 3 0" "p aux sp p2p 1,q 1 3" \
  "d 1 3 0,r 3,a 1 4 0,a 4 5 0,a 5 3 0" "$around"
for hops in 2 3; do
  expect "a way around, at most $hops hops" 0 $'d 1 3 0\nr 3\na 1 4 0\na 4 5 0\na 5 3 0' "" dist --routes --hops $hops worked.gr worked.p2p
  expect "a way around, at most $hops hops, saved" 0 "${around//,/$'\n'}" "" save --hops $hops worked.gr
done
expect_worked "a ring" "p sp 5 5,a 1 2 1,a 2 3 1,a 3 4 1,a 4 5 1,a 5 1 1" "p aux sp p2p 4,q 5 4,q 1 5,q 3 2,q 2 2" \
  "d 5 4 4,r 4,a 5 1 1,a 1 2 1,a 2 3 1,a 3 4 1,d 1 5 4,r 4,a 1 2 1,a 2 3 1,a 3 4 1,a 4 5 1,d 3 2 4,r 4,a 3 4 1,a 4 5 1,a 5 1 1,a 1 2 1,d 2 2 0,r 0" \
  "p ch 5 8,o 1,o 2,o 3,o 4,o 5,l 1 2 1 1 0,l 5 1 1 1 0,l 2 3 1 1 0,l 5 2 2 2 1,l 3 4 1 1 0,l 5 3 3 3 2,l 4 5 1 1 0,l 5 4 4 4 3" \
  "p ch 5 8,o 1,o 3,o 2,o 4,o 5,l 1 2 1 1 0,l 5 1 1 1 0,l 3 4 1 1 0,l 2 3 1 1 0,l 2 4 2 2 3,l 5 2 2 2 1,l 4 5 1 1 0,l 5 4 4 4 2"
# Each arc is light, and each shortcut heavy: a search for witnesses then goes over from words to pairs.
arc=$((1 << 29))
expect_worked "a heavy ring" "p sp 5 5,a 1 2 $arc,a 2 3 $arc,a 3 4 $arc,a 4 5 $arc,a 5 1 $arc" "p aux sp p2p 1,q 2 2" "d 2 2 0,r 0" \
  "p ch 5 8,o 1,o 2,o 3,o 4,o 5,l 1 2 $arc 1 0,l 5 1 $arc 1 0,l 2 3 $arc 1 0,l 5 2 $((2 * arc)) 2 1,l 3 4 $arc 1 0,l 5 3 $((3 * arc)) 3 2,l 4 5 $arc 1 0,l 5 4 $((4 * arc)) 4 3" \
  "p ch 5 8,o 1,o 3,o 2,o 4,o 5,l 1 2 $arc 1 0,l 5 1 $arc 1 0,l 3 4 $arc 1 0,l 2 3 $arc 1 0,l 2 4 $((2 * arc)) 2 3,l 5 2 $((2 * arc)) 2 1,l 4 5 $arc 1 0,l 5 4 $((4 * arc)) 4 2"
# A long way there and back between nodes 1 and 16, a short way around it, and nodes that hang on the short way. Two legs stand for as many arcs
# together as there are nodes, so they are no shortcut: with it the hierarchy would have 93 legs.
python3 -c '
from pathlib import Path
from helpers.writing import write_graph
from oracles.rules import hierarchy_text
arcs = [(19, 1, 1), (1, 20, 1), (16, 18, 1), (18, 16, 1), (19, 17, 1), (17, 23, 0), (23, 20, 0), (19, 21, 0), (21, 22, 0), (22, 23, 0)]
arcs += [arc for node in range(1, 16) for arc in ((node, node + 1, 1), (node + 1, node, 1))]
arcs += [arc for node in range(19, 24) for arc in ((2 * node - 14, node, 0), (node, 2 * node - 13, 0))]
write_graph(Path("long.gr"), 33, arcs)
Path("long.ch").write_text(hierarchy_text(33, arcs, 3, "difference"))
'
expect "a shortcut of too many arcs" 0 "$(cat long.ch)" "" save --hops 3 long.gr
compare "a shortcut of too many arcs, legs" "p ch 33 91" "$(head -n 1 long.ch)"

expect_worked "one node" "p sp 1 0" "p aux sp p2p 1,q 1 1" "d 1 1 0,r 0" "p ch 1 0,o 1"
expect_worked "the greatest weight of two nodes" "p sp 2 1,a 1 2 576460752303423488" "p aux sp p2p 1,q 1 2" \
  "d 1 2 576460752303423488,r 1,a 1 2 576460752303423488"
expect_worked "the greatest weight of one node" "p sp 1 1,a 1 1 1152921504606846976" "p aux sp p2p 1,q 1 1" "d 1 1 0,r 0"

list_of 5 1 >five_and_one.ss
list_of 4 4 5 >fours.ss
list_of 2 >node_2.ss
expect "a target that repeats" 0 $'t 5 4 4 0\nt 1 3 3 4' "" table ring.gr five_and_one.ss fours.ss
expect "no target" 0 "t 2" "" table ring.gr node_2.ss nothing.ss
expect "a near target that repeats" 0 $'n 5 3 5 0 4 4 4 4\nn 1 3 4 3 4 3 5 4' "" near ring.gr five_and_one.ss fours.ss
expect "the first of two equal targets" 0 $'n 5 1 5 0\nn 1 1 4 3' "" near --count 1 ring.gr five_and_one.ss fours.ss
expect "no near target" 0 "n 2 0" "" near ring.gr node_2.ss nothing.ss
expect "no source of near rows" 0 "" "" near ring.gr nothing.ss one.ss
expect "no node, no near rows" 0 "" "" near --all none.gr nothing.ss
expect "no source" 0 "" "" table ring.gr nothing.ss one.ss
expect "no node, no table" 0 "" "" table none.gr nothing.ss nothing.ss
expect "a missing file is told before a faulty one" 3 "" "chtab: cannot read queries" dist bad.txt missing.p2p
"$root/chtab" dist none.gr none.p2p >/dev/full 2>err.txt
compare "no query, on a full device, status" 0 "$?"

nines=$(printf '9%.0s' {1..100000})
refused "a weight of a hundred thousand digits" "graph line 2: weight too large" "p sp 2 1\na 1 2 $nines\n" "$none"
refused "a node of a hundred thousand digits" "graph line 2: node out of range" "p sp 2 1\na 1 $nines 3\n" "$none"
refused "a size of a hundred thousand digits" "graph line 1: size too large" "p sp $nines 0\n" "$none"
refused "as many nodes and arcs as may be" "graph line 2: too few lines" 'p sp 33554432 134217728' "$none"
refused "an arc without a node" "graph line 2: node out of range" 'p sp 0 1\na 1 1 1' "$none"
refused "a mark of the order of bytes" "graph line 1: unknown line" '\xEF\xBB\xBFp sp 1 0' "$none"
refused "a tab that goes down" "graph line 1: unknown line" 'p\x0Bsp 1 0' "$none"
refused "a byte beyond ASCII" "graph line 1: bad problem line" 'p sp 1 0 \xFF' "$none"
refused "a carriage return within a line" "graph line 1: bad problem line" 'p sp 1 0\x0Da 1 1 1' "$none"
refused "a byte of 0" "graph line 2: unknown line" 'p sp 1 1\na\x00 1 1 1' "$none"
refused "a sign" "graph line 2: bad line" 'p sp 1 1\na 1 1 +1' "$none"

told
