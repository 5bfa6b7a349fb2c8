#!/usr/bin/env bash
# The C program of docs/LIBRARY.md: the page shows the file, the page's line compiles it, its transcripts are what it prints, and it
# finds the same earliest frame as the program `frames` with a solver that is asked anew at each depth. And the page's function that says
# where a word that is read comes from, by tests/search/written_in.c.
# Arguments: the programs `frames` and `replay`. After `scripts/build.sh library`; needs libcadical-dev.
set -u
FRAMES=$(readlink -f "$1")
REPLAY=$(readlink -f "$2")
export FRAMES REPLAY
cd "$(dirname "$0")/.." || exit 2
page=docs/LIBRARY.md
source=examples/search/search.c
. tests/check.sh

block() { # what stands behind the opening fence, and under which heading: any where none is given
  awk -v kind="$1" -v heading="## ${2-}" '/^## / { here = heading == "## " || $0 == heading }
    /^```/ { inside = !inside; wanted = here && $0 == "```" kind; next } inside && wanted' "$page"
}
check "the page shows the program" diff <(block c "A search depth by depth") "$source"
rm -f target/search
check "the page's line compiles it" bash -ec "$(block sh)"
[ -x target/search ] || finish
check "it compiles without a warning" cc -std=c11 -pedantic -Wall -Wextra -Werror -O -Iinclude -c -o "$work/search.o" "$source"

# each command of the page's transcript, with what it prints
block '' | awk -v work="$work" '/^\$ / { file = work "/shown." ++asked; print substr($0, 3); next } { print > file }' > "$work/asked"
asked=0
while read -r command; do
  asked=$((asked + 1))
  bash -c "$command" > "$work/printed"
  check "$page: $command" diff "$work/shown.$asked" "$work/printed"
done < "$work/asked"
check "the page has a transcript" [ "$asked" -ge 2 ]

by_depth() { earliest "$1" "$2"; echo $?; }
by_program() { target/search "$1" "$2"; echo $?; }
agree() { [ "$(by_depth "$1" "$2")" = "$(by_program "$1" "$2")" ] || diff <(by_depth "$1" "$2") <(by_program "$1" "$2"); }
for sheet in examples/*/*.sheet; do
  for depth in 0 1 2 3 4; do check "$sheet to depth $depth, by the programs and by the C program" agree "$sheet" "$depth"; done
done

# a property that is broken in a frame only when it is due: a latch chain of four, so that frame 4 is the first; and constants
{ line N 0 4 0; line M 1 1 0; line L 1 0; line L 2 0; line L 4 0; line L 6 0; line A 0; line D 0; line C 0 0 9; } > "$work/chain.sheet"
{ line N 0 0 0; line M 1 1 0; line A 0; line D 0; line C 0 0 0; } > "$work/false.sheet"
{ line N 0 1 0; line M 1 1 0; line L 0 0; line A 0; line D 0; line C 0 3 0; } > "$work/reading.sheet" # RE is an inverted latch
{ line N 0 0 0; line M 1 1 0; line A 0; line D 0; line C 0 0 1; } > "$work/true.sheet"
# two ports: from frame 2 on a 1 is written to address 0, and the second port reads address 0, or address 1
two_ports() { line N 0 2 0; line T 1 1 0; line L 1 0; line L 2 0; line A 0; line D 1; line B "$1"; line R 1; line C 4 0 9; }
two_ports 0 > "$work/second.sheet"
two_ports 1 > "$work/never.sheet"
for depth in 3 4 255; do check "the chain to depth $depth" agree "$work/chain.sheet" "$depth"; done
for depth in 2 3 12; do
  check "two ports to depth $depth" agree "$work/second.sheet" "$depth"
  check "two ports to depth $depth, where nothing is broken" agree "$work/never.sheet" "$depth"
done
ends() { # what, status, printed, arguments ..
  local what=$1 status=$2 printed=$3
  shift 3
  check "$what" [ "$(target/search "$@" 2> "$work/said"; echo $?)" = "$printed${printed:+
}$status" ]
}
ends "the chain" 10 "$work/chain.sheet: the property is broken in frame 4 at the earliest" "$work/chain.sheet" 255
ends "a property that is false" 10 "$work/false.sheet: the property is broken in frame 0 at the earliest" "$work/false.sheet" 0
ends "a property that is false in a chip that reads" 10 "$work/reading.sheet: the property is broken in frame 0 at the earliest" "$work/reading.sheet" 3
ends "a second port" 10 "$work/second.sheet: the property is broken in frame 3 at the earliest" "$work/second.sheet" 12
ends "a second port that reads what is never written" 20 "$work/never.sheet: no run breaks the property in frames 0 to 12" "$work/never.sheet" 12
ends "a property that is true" 20 "$work/true.sheet: no run breaks the property in frames 0 to 255" "$work/true.sheet" 255

said() { check "$1: said" [ "$(head -n 1 "$work/said")" = "$2" ]; }
ends "no arguments" 2 ""
ends "a depth that is no number" 2 "" "$work/true.sheet" x
ends "a depth that is no 32-bit number" 2 "" "$work/true.sheet" 4294967296
ends "a missing sheet" 1 "" "$work/missing.sheet" 1
ends "depth 256" 1 "" "$work/chain.sheet" 256
said "depth 256" "refused 7 at 0"
line C 0 0 1 >> "$work/true.sheet"
ends "a line too many" 1 "" "$work/true.sheet" 1
said "a line too many" "refused 3 at 6"
for _ in $(seq 628); do line C 0 0 1; done > "$work/long.sheet"
ends "a sheet that is too long" 1 "" "$work/long.sheet" 1
said "a sheet that is too long" "refused 1 at 0"

# The page's function, in a program that runs each answer and keeps beside the memory which frame wrote a word last.
sources() { # name of the program; the function on standard input
  mkdir -p "$work/$1.d"
  { echo '#include <ccadical.h>'; echo '#include <marrubigai.h>'; cat; } > "$work/$1.d/written_in.h"
  cc -std=c11 -pedantic -Wall -Wextra -Werror -O -Iinclude -I"$work/$1.d" -o "$work/$1" tests/search/written_in.c -Ltarget/staticlib -lmarrubigai \
    -lcadical -lstdc++ -lm
}
block c "Where a word that is read comes from" > "$work/function.c"
check "the page's function compiles" sources right < "$work/function.c"
names() { # what, lines due, sheet, depth, answers
  check "$1" same "$2" "$("$work/right" "${@:3}"; s=$?; [ "$s" -eq 0 ] || echo "status $s")"
}
# Each of these chips has one answer but for inputs that do not count, or is asked for one.
names "the first example" "start 0
start 0" examples/echo/chip.sheet 1 9
names "depth 3 of the first example" "start 0 1 2" examples/echo/chip.sheet 3 1
# the second port reads address 0, which frame 2 writes; the first never reads
names "the second port alone" "-/start -/start -/start -/2" "$work/second.sheet" 3 9
# Latches 1 to 3 are true from frames 1, 2 and 3 on. The address is wire 5, latch 1 and not latch 3: 0, 1, 1, and from frame 3 on 0. Frames 0 and 1
# write; it reads from frame 2 on: what frame 1 wrote, then what frame 0 did. P is false.
{ line N 0 3 1; line M 1 1 0; line L 1 0; line L 2 0; line L 4 0; line G 2 7; line A 10; line D 1; line C 5 4 0; } > "$work/older.sheet"
names "the newest write, and then an older one" "- - 1 0 0" "$work/older.sheet" 4 1
# the same from an unknown start, reading in every frame
{ line N 0 3 1; line M 1 1 ""; line L 1 0; line L 2 0; line L 4 0; line G 2 7; line A 10; line D 1; line C 5 1 0; } > "$work/unknown.sheet"
names "an unknown start" "start start 1 0 0" "$work/unknown.sheet" 4 1
# address, WE and RE are inputs, P is false: all 512 choices
{ line N 3 0 0; line M 1 1 0; line A 2; line D 1; line C 4 6 0; } > "$work/free.sheet"
says_same() { "$work/$1" "${@:2}" > "$work/lines"; }
check "every choice of three frames" says_same right "$work/free.sheet" 2 1000
check "there are 512" [ "$(wc -l < "$work/lines")" -eq 512 ]
check "newest write, older write, start and no read are among them" [ "$(cut -d ' ' -f 3 "$work/lines" | sort -u | tr '\n' ' ')" = "- 0 1 start " ]
# both addresses and both RE are inputs, every frame writes: all 4,096 choices
{ line N 4 0 0; line T 1 1 0; line A 2; line D 1; line B 4; line R 8; line C 1 6 0; } > "$work/free_two.sheet"
check "every choice of two ports" says_same right "$work/free_two.sheet" 2 5000
check "there are 4,096" [ "$(wc -l < "$work/lines")" -eq 4096 ]
check "the ports read from different frames" grep -q '0/1$' "$work/lines"
check "one reads what the other does not" grep -q -- '-/start$' "$work/lines"
for sheet in fourth-revision/faulty fifth-revision/faulty sixth-revision/unknown seventh-revision/faulty; do
  check "$sheet, twelve runs" says_same right "examples/$sheet.sheet" 8 12
done
# other functions are noticed
wrong() { # what, sheet, depth, edit of the function
  check "$1 compiles" sources wrong < <(sed "$4" "$work/function.c")
  check "$1 is noticed" bash -c '! "$@" > /dev/null' - "$work/wrong" "$2" "$3" 1000
  cmp -s "$work/function.c" <(sed "$4" "$work/function.c") && check "$1 is another function" false
}
wrong "the frame behind the one that wrote" "$work/free.sheet" 2 's/return (int)j - 1/return (int)j/'
wrong "the start where nothing is read" "$work/free.sheet" 2 's/ ? -1 : -2/ ? -1 : -1/'
wrong "the first port's pairs for both" "$work/free_two.sheet" 2 's/j - 1, i, port)/j - 1, i, 1 + 0 * port)/'
wrong "the first port's start for both" "$work/free_two.sheet" 2 's/0, i, port)/0, i, 1 + 0 * port)/'

finish
