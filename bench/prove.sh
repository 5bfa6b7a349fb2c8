#!/usr/bin/env bash
# Proofs for every frame, beside abc's pdr and yosys-smtbmc's k-induction (with z3), which get the same designs with their memories as yosys makes
# them: the repaired sheets of the examples, and the repaired designs of examples/verilog by sizes of the memory. Processor time in seconds; `-` where nothing was proved within the limit.
# Arguments: the limit in seconds of processor time (60), and the sizes in address bits (3 5 7 9). After `make command`.
set -u
cd "$(dirname "$0")/.." || exit 2
. scripts/install.sh
install_missing berkeley-abc berkeley-abc yosys yosys z3 z3 || exit 1
limit=${1:-60}
designs=examples/verilog
sizes=${2:-3 5 7 9}
command=$PWD/target/command/marrubigai
work=$(mktemp -d)
trap 'rm -rf "$work"' EXIT
TIMEFORMAT='%U %S'

# the processor time of a command with the limit, and 0 in $work/status where its output has the words that are wanted
timed() { # words, command ..
  local words=$1
  shift
  { time (ulimit -t "$limit"; timeout $((5 * limit)) "$@" > "$work/out" 2>&1); } 2> "$work/time"
  if grep -q "$words" "$work/out"; then tail -n 1 "$work/time" | awk '{ printf "%.1f", $1 + $2 }'; else printf -- -; fi
}

prepare() { # file, what yosys does with the memory, top and parameters
  yosys -Q -T -q -p "read_verilog -formal -sv -I$PWD/examples/verilog $1; hierarchy -check $3; proc; flatten; delete -port o:*
    chformal -early; chformal -cover -remove; opt -keepdc; $2" > "$work/yosys" 2>&1 || cat "$work/yosys"
}
row() { # design, address bits, top and parameters for yosys, file for yosys, options of the command ..; facts: what is stated
  local design=$1 words=$((1 << $2)) top=$3 file=$4 pdr smtbmc prove check size by
  shift 4
  prepare "$file" "memory -nordff; opt -keepdc; setundef -undriven -anyseq; async2sync; dffunmap; techmap; setundef -anyseq; aigmap; opt_clean
    write_aiger -zinit $work/registers.aig" "$top"
  pdr=$(timed 'Property proved' berkeley-abc -q "read_aiger $work/registers.aig; fold; pdr")
  prepare "$file" "memory -nordff -nomap; opt; async2sync; dffunmap; write_smt2 -wires $work/design.smt2" "$top"
  smtbmc=$(timed 'Temporal induction successful' yosys-smtbmc -s z3 -i -t 20 "$work/design.smt2")
  rm -f "$work/made"
  prove=$(timed 'holds in every frame, certified' "$command" -k 3 --timeout $((4 * limit)) --prove ${facts-} --certificate "$work/made" "$@")
  by=$(sed -n 's/.* clauses, by \(.*\), with .*/\1/p' "$work/out")
  size=- check=-
  if [ "$prove" != - ]; then
    size=$(($(stat -c %s "$work/made") / 1024))
    check=$(timed 'holds in every frame, certified' "$command" -q --check "$work/made" "$@")
  fi
  echo "| \`$design\` | $words | $pdr | $smtbmc | $prove | ${by:--} | $size | $check |"
}
around() { # design with its parameters, its other inputs: a reset in frame 0
  printf '`include "%s.v"\nmodule around (input clock, %s);\n' "${1%% *}" "$2"
  printf 'reg reset = 1; always @(posedge clock) reset <= 0;\n%s dut (.*);\nendmodule\n' "$1"
}

assertion() { echo "$designs/$1.v:$(grep -n 'assert (' "$designs/$1.v" | cut -d : -f 1)"; } # the name of a design's one assertion

echo "| design | words | pdr | smtbmc | --prove | by | KB | check |"
echo "|---|---|---|---|---|---|---|---|"
case " $sizes " in
  *" 3 "*)
    for example in fourth-revision fifth-revision sixth-revision seventh-revision; do
      awk -f bench/sheet_to_verilog.awk "examples/$example/repaired.sheet" > "$work/sheet.sv"
      row $example 3 "-top around" "$work/sheet.sv" "examples/$example/repaired.sheet"
    done
    ;;
esac
for bits in $sizes; do
  for design in carton_counter registers; do
    row $design "$bits" "-top $design -chparam BITS $bits" $designs/$design.v -P BITS="$bits" $designs/$design.v
  done
  around "stack #(.DEPTH($bits), .WIDTH(8))" "input push, input pop, input [7:0] data, output [7:0] out" > "$work/stack.sv"
  row stack "$bits" "-top around" "$work/stack.sv" --reset reset -P DEPTH="$bits" $designs/stack.v
  facts="--invariant $designs/lookup.facts" row lookup "$bits" "-top lookup -chparam BITS $bits -chparam WIDTH 4" $designs/lookup.v \
    -P BITS="$bits" -P WIDTH=4 $designs/lookup.v
  sed "s/\[4\]/[$bits]/g; s/\[3:0\]/[$((bits - 1)):0]/g" $designs/queue.facts > "$work/queue.facts"
  facts="--invariant $work/queue.facts" row queue "$bits" "-top queue -chparam BITS $bits -chparam WIDTH 2" $designs/queue.v \
    -P BITS="$bits" -P WIDTH=2 $designs/queue.v
  row histogram "$bits" "-top histogram -chparam BINS $bits" $designs/histogram.v --property "$(assertion histogram)" -P BINS="$bits" $designs/histogram.v
  around "cache #(.INDEX($bits), .TAG(5))" "input request, input [4:0] tag, input [$((bits - 1)):0] index, output hit" > "$work/cache.sv"
  sed "s/\[3:0\]/[$((bits - 1)):0]/; s/\[8:4\]/[$((bits + 4)):$bits]/" $designs/cache.facts > "$work/cache.facts"
  facts="--invariant $work/cache.facts" row cache "$bits" "-top around" "$work/cache.sv" --reset reset --property "$(assertion cache)" -P INDEX="$bits" \
    $designs/cache.v
done
