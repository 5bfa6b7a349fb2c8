#!/usr/bin/env bash
# Measures the search of the command `marrubigai` beside that of abc's bmc3, to the same depths: on designs of examples/verilog with memories of 8 to
# 512 words and on sheets of the examples, all without a fault. bmc3 has the memory as registers, made by yosys. Figures are processor time (user
# and system) in seconds, each of one run, the runs of a row one behind the other. Of the command: the search; the elaboration of its certificate,
# which is what a search with a certificate takes more, less the check; and the check, with the reading of the file. It says which of our own targets
# are reached (bmc3 takes at least as long as the search at 8 words, at least three times as long from 32 words on; elaboration and check take at most
# as long as the search), and fails only where a program fails or the two do not agree.
# Arguments: seconds of processor time for a run (60), and a pattern of the rows that are wanted. After `make command`; needs yosys and berkeley-abc.
set -euo pipefail
cd "$(dirname "$0")/.."
limit=${1:-60}
pattern=${2:-.}
command=$PWD/target/command/marrubigai
designs=$PWD/examples/verilog
for program in yosys berkeley-abc "$command"; do
  command -v "$program" > /dev/null 2>&1 || { echo "$program is missing" >&2; exit 1; }
done
work=$PWD/target/bench/search
mkdir -p "$work"

# design or sheet, words, depth, parameters, and the other inputs of a design with a reset, which is 1 in frame 0 alone then
rows='
histogram        8  40 BINS=3,WIDTH=3
lookup           8  26 BITS=3,WIDTH=6
cache            8  50 INDEX=3,TAG=12 request,[11:0]tag,[2:0]index
queue            8  26 BITS=3,WIDTH=8
stack            8  40 DEPTH=3,WIDTH=8 push,pop,[7:0]data
carton_counter   8  20
fourth-revision  8  20
fifth-revision   8  20
sixth-revision   8  20
seventh-revision 8  25
cache           16  45 INDEX=4,TAG=6 request,[5:0]tag,[3:0]index
lookup          32  36 BITS=5,WIDTH=6
cache           32  45 INDEX=5,TAG=8 request,[7:0]tag,[4:0]index
queue           32  24 BITS=5,WIDTH=8
stack           32  60 DEPTH=5,WIDTH=8 push,pop,[7:0]data
lookup         128  60 BITS=7,WIDTH=6
queue          128  24 BITS=7,WIDTH=8
stack          128  60 DEPTH=7,WIDTH=8 push,pop,[7:0]data
lookup         512  60 BITS=9,WIDTH=6
queue          512  24 BITS=9,WIDTH=8
stack          512  60 DEPTH=9,WIDTH=8 push,pop,[7:0]data
'

# The processor time of a command, in `seconds`, and what it prints, in `printed`.
TIMEFORMAT='%U %S'
measure() {
  local figures
  figures=$( { time bash -c 'ulimit -t "$0" && exec "$@"' "$limit" "$@" > "$work/printed" 2> "$work/said" || true; } 2>&1)
  seconds=$(awk '{ printf "%.2f", $1 + $2 }' <<< "$figures")
  printed=$(cat "$work/printed")
}

registers() { # what reads the design into yosys: with its memory as registers it becomes binary AIGER
  yosys -Q -T -q -p "$1; proc; flatten; delete -port o:*; chformal -early; chformal -cover -remove; opt -keepdc -nodffe -nosdff
    memory -nordff; opt -keepdc -nodffe -nosdff; setundef -undriven -anyseq; async2sync; dffunmap; techmap; setundef -anyseq
    opt -keepdc -nodffe -nosdff; aigmap; opt_clean; write_aiger -zinit $work/registers.aig" > "$work/yosys" 2>&1 || { cat "$work/yosys" >&2; exit 1; }
}

prepare() { # name, parameters, inputs
  local file=$designs/$1.v options=() top="-top $1" list=() parameter
  rm -rf "$work/kept" "$work/certificate"
  if [ ! -f "$file" ]; then
    mkdir "$work/kept"
    cp "examples/$1/repaired.sheet" "$work/kept/1.sheet"
    awk -f bench/sheet_to_verilog.awk "$work/kept/1.sheet" > "$work/around.sv"
    registers "read_verilog -formal -sv $work/around.sv; hierarchy -check -top around"
    return
  fi
  IFS=, read -ra list <<< "$2"
  for parameter in "${list[@]}"; do options+=(-P "$parameter"); done
  [ -z "$3" ] || options+=(--reset reset)
  options+=(--property "$1.v:$(grep -n 'assert (' "$file" | cut -d : -f 1)")
  (cd "$designs" && "$command" -q -k 0 --keep "$work/kept" "${options[@]}" "$1.v" > "$work/printed") || [ $? -eq 20 ]
  if [ -n "$3" ]; then
    {
      printf '`include "%s"\nmodule around (input clock, input %s);\n' "$file" "${3//,/, input }"
      printf '  reg reset = 1;\n  always @(posedge clock) reset <= 0;\n  %s #(%s) dut (.clock(clock), .reset(reset), %s);\nendmodule\n' "$1" \
        "$(sed -E 's/([A-Z]+)=([0-9]+)/.\1(\2)/g' <<< "$2")" "$(sed -E 's/(\[[^]]*\])?([a-z]+)/.\2(\2)/g' <<< "$3")"
    } > "$work/around.sv"
    file=$work/around.sv
    top="-top around"
  else
    for parameter in "${list[@]}"; do top="$top -chparam ${parameter/=/ }"; done
  fi
  registers "read_verilog -formal -sv $file; hierarchy -check $top"
}

: > "$work/rows"
printf '%-16s %5s %5s %7s %11s %6s %7s\n' design words depth search elaboration check bmc3
while read -r name words depth parameters inputs; do
  [ -n "$name" ] && [[ "$name $words" =~ $pattern ]] || continue
  prepare "$name" "$parameters" "$inputs"
  sheet=$work/kept/1.sheet holds="holds in frames 0 to $depth" elaboration=- check=-
  measure "$command" -q -k "$depth" "$sheet"
  case $printed in *"$holds"*) search=$seconds ;; '') search=">$limit" ;; *) echo "$name: $printed" >&2; exit 1 ;; esac
  if [ "$search" = "$seconds" ]; then
    measure "$command" -q -k "$depth" --certificate "$work/certificate" "$sheet"
    with=$seconds
    if [ -f "$work/certificate" ]; then
      measure "$command" -q -k "$depth" --check "$work/certificate" "$sheet"
      check=$seconds
      elaboration=$(awk -v more="$with" -v search="$search" -v check="$check" \
        'BEGIN { more -= search + check; printf "%.2f", (more < 0 ? 0 : more) }')
    fi
  fi
  measure berkeley-abc -q "read_aiger $work/registers.aig; fold; bmc3 -F $((depth + 1))"
  case $printed in
    *"No output asserted in $((depth + 1)) frames"*) other=$seconds ;;
    *asserted*) echo "$name: $printed" >&2; exit 1 ;;
    *) other=">$limit" ;;
  esac
  printf '%-16s %5d %5d %7s %11s %6s %7s\n' "$name" "$words" "$depth" "$search" "$elaboration" "$check" "$other" | tee -a "$work/rows"
done <<< "$rows"

awk '
  function number(text) { sub(/^>/, "", text); return text + 0 }
  function say(met, what, list) { printf "%-8s %s%s\n", met ? "reached" : "missed", what, list == "" ? "" : ", but for:" list }
  {
    row = " " $1 " " $2
    if ($2 == 8 && ($4 ~ /^>/ || number($7) < number($4))) level = level row
    if ($2 >= 32 && ($4 ~ /^>/ || number($7) < 3 * number($4))) ahead = ahead row
    if ($5 == "-" || $5 + $6 > $4) slow = slow row
  }
  END {
    say(level == "", "bmc3 takes at least as long as the search at 8 words", level)
    say(ahead == "", "bmc3 takes at least three times as long as the search from 32 words on", ahead)
    say(slow == "", "elaboration and check take at most as long as the search", slow)
  }' "$work/rows"
