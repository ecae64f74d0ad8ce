#!/bin/sh
# Makes sample logs and their sheets: make-samples.sh FOLDER writes NAME.log and NAME.sheet into FOLDER.
set -eu
[ $# -eq 1 ] || { echo "usage: make-samples.sh FOLDER" >&2; exit 2; }
mkdir -p "$1"
out=$(cd "$1" && pwd)
cd "$(dirname "$0")"
cargo build --release --offline --quiet
reference=target/release/reference
work=$(mktemp -d)
trap 'rm -rf "$work"' EXIT
$reference gen 17 >"$work/table"
$reference replay <"$work/table" >"$work/replayed"

# The points of line N of the table, cut to those that were taken.
points() {
    taken=$(sed -n "$((($1 - 1) * 3 + 1))p" "$work/replayed" | cut -d' ' -f4)
    sed -n "${1}p" "$work/table" | cut -d' ' -f3 | cut -c1-"$taken"
}
# A let first, and one after every N points.
with_lets() { sed -E "s/(.{$1})/\1L/g; s/^/L/"; }
repeat() { printf "$1%.0s" $(seq "$2"); }
log() { $reference log "$2" "$3" "$4" "$5" >"$out/$1.log"; } # NAME FORMAT NUMBER OPENER POINTS
bytes() { cat >"$out/$1.log"; }                              # NAME, and the bytes as input
whole() {                                                    # FORMAT NUMBER LINE EVERY
    [ "$(sed -n "${3}p" "$work/table" | cut -d' ' -f1)" = "$1" ]
    log "$1" "$1" "$2" "$(sed -n "${3}p" "$work/table" | cut -d' ' -f2)" "$(points "$3" | with_lets "$4")"
}

# Finished matches.
whole game 0 5 4
whole tennis3 1 14 11
whole tennis5 258 19 13
whole tennismt 3 27 9
whole badminton 1000 36 10
whole volleyball 65535 43 17
whole table5 256 49 7
whole sideout 42 57 12

# Unfinished ones.
six_all=$(repeat AAAABBBB 6)
log game-open game 10 B ABLABABA
log tennis3-open tennis3 11 A "${six_all}ABABABLABABABAABBLBBAA"
log tennis5-open tennis5 12 B "$(points 22 | with_lets 20)"
log tennismt-open tennismt 13 A "L$(points 24)L"
log badminton-open badminton 14 B "$(repeat BA 29)LB$(repeat A 21)$(repeat BA 20)BL"
log volleyball-open volleyball 15 B "$(points 40 | with_lets 30)"
log table5-open table5 16 A "$(repeat AB 9)LABALB$(repeat AB 3)"
log sideout-open sideout 17 A "$(points 59 | with_lets 25)"

# Between two games or sets, or before a tie-break: what is over still stands.
log tennis3-six-all tennis3 21 A "$six_all"
log tennis3-between tennis3 22 A "${six_all}ABABABABABABAAL"
log tennismt-one-all tennismt 23 A "$(points 23)"
log badminton-between badminton 24 B "$(repeat BA 29)B"
log volleyball-two-all volleyball 25 A "$(repeat A 25)$(repeat B 50)$(repeat A 25)"
log table5-between table5 26 A "$(repeat AB 10)AAL"
log sideout-between sideout 27 A "$(repeat A 14)$(repeat B 15)AA"
log sideout-side-out sideout 28 A "$(repeat A 14)$(repeat B 15)AAB"

# The second game, opened by B, at 10-11: B served the last point and A serves the next.
log table5-past-ten table5 29 A "$(repeat A 11)$(repeat BA 10)B"

# Nothing played; lets after the end; as many entries as there are places.
log table5-unplayed table5 31 B ""
log game-lets-after game 32 A AAAALLL
{ printf 'M\000\041\000A'; repeat L 29996; repeat PB 4; } | bytes game-full

# A game that nobody gets two ahead in ends with the 9,999th point of a side.
{ printf 'M\000\042\000A'; repeat PAPB 9998; printf PB; } | bytes game-longest
{ printf 'M\000\043\006B'; repeat PBPA 9998; printf PBPA; } | bytes table5-longest

# Faults, named by their number.
{ printf 'M\000\007\000A'; repeat L 30001; } | bytes fault-9-let
{ printf 'M\000\007\005A'; repeat L 29999; printf PAPB; } | bytes fault-9-point
{ printf 'M\000\007\000A'; repeat PB 30001; } | bytes fault-9-before-14
printf '' | bytes fault-11-empty
printf 'M' | bytes fault-11-header
printf 'M\000\007\010' | bytes fault-11-before-13
printf 'M\000\007\000APALP' | bytes fault-11-point
{ printf 'M\000\007\000A'; repeat L 30000; printf P; } | bytes fault-11-before-9
printf 'PA' | bytes fault-12-no-header
printf 'X' | bytes fault-12-before-11
printf 'M\000\007\000APALM\000\007\000A' | bytes fault-12-second-header
printf 'M\000\007\000APALpA' | bytes fault-12-kind
{ printf 'M\000\007\000A'; repeat L 30000; printf X; } | bytes fault-12-before-9
printf 'M\000\007\000APAPAPAPAPBX' | bytes fault-12-before-14
printf 'M\000\007\010A' | bytes fault-13-code
printf 'M\000\007\007C' | bytes fault-13-opener
printf 'M\000\007\007ALPAPLPB' | bytes fault-13-side
{ printf 'M\000\007\000A'; repeat L 30000; printf PC; } | bytes fault-13-before-9
log fault-14-game game 7 A LAAAALLBA
log fault-14-tennis3 tennis3 7 A "$(repeat A 48)LB"
log fault-14-tennis5 tennis5 7 B "$(repeat B 73)"
log fault-14-tennismt tennismt 7 A "$(points 25)LA"
log fault-14-badminton badminton 7 B "$(repeat A 43)"
log fault-14-volleyball volleyball 7 A "$(repeat A 75)LLB"
log fault-14-table5 table5 7 B "$(repeat B 33)A"
log fault-14-sideout sideout 7 A "$(repeat B 32)"

for log in "$out"/*.log; do $reference sheet "$log" >"${log%.log}.sheet"; done

# The whole matches are won and the open ones are not, and each fault is the one it is named by.
for name in game tennis3 tennis5 tennismt badminton volleyball table5 sideout; do
    tail -n 1 "$out/$name.sheet" | grep -q '^won'
    tail -n 1 "$out/$name-open.sheet" | grep -q '^serves'
done
for sheet in "$out"/fault-*.sheet; do
    number=${sheet##*/fault-}
    grep -q "^fault ${number%%-*} at" "$sheet"
done
