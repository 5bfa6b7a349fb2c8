#!/usr/bin/env bash
# The command `marrubigai`: it is built without a warning, and with sanitizers; its verdicts on sheets, texts and Verilog are those of
# other tools and of the designs' stories; each exit status, each refusal by name; interrupts and time; what it writes.
# Arguments: the programs `frames`, `replay` and `export_aig`. After `scripts/build.sh library`; needs libcadical-dev, yosys,
# iverilog, berkeley-abc and cadical.
set -u
FRAMES=$(readlink -f "$1")
REPLAY=$(readlink -f "$2")
export_aig=$(readlink -f "$3")
export FRAMES REPLAY
export ASAN_OPTIONS=exitcode=99
cd "$(dirname "$0")/.." || exit 2
here=$PWD
. tests/check.sh
. tests/aag.sh

build() { make --no-print-directory -C command "$@" > "$work/make" 2>&1 || { cat "$work/make"; return 1; }; }
check "it is built" build
check "it is built with sanitizers" build SANITIZE=1
plain=$here/target/command/marrubigai
sanitized=$here/target/command-sanitized/marrubigai
[ -x "$plain" ] && [ -x "$sanitized" ] || finish
objects() { find target/command-sanitized -name '*.o' ! -name main.o; }
tool() { # name: a program of tests/command, linked with all of the command but its main
  g++ -std=c++17 -Wall -Wextra -Werror -O1 -g -fsanitize=address,undefined -fno-sanitize-recover=all -Iinclude -o "$work/$1" "tests/command/$1.cpp" \
    $(objects) target/staticlib/libmarrubigai.a -lcadical
}

check "the reader of JSON is built" tool json_value
value() { "$work/json_value" "$work/out" "$@"; }

# The command, with sanitizers, in the folder of the files.
mkdir "$work/files"
run() { (cd "${folder:-$work/files}" && PATH=${path:-$PATH} && exec "$sanitized" "$@") > "$work/out" 2> "$work/err"; }
# It ends with this status, prints this, and what is said on standard error begins with the last; one of the two is empty.
ends() { # what, status, printed, said, arguments ..
  local what=$1 status=$2 printed=$3 said=$4
  shift 4
  run "$@"
  check "$what: status" same "$status" "$?"
  check "$what: printed" same "$printed" "$(cat "$work/out")"
  check "$what: said" same "$said" "$(head -c ${#said} "$work/err")"
  check "$what: something is said exactly where nothing is printed" same "$([ -s "$work/out" ])$?" "$([ ! -s "$work/err" ])$?"
}
usage="usage: marrubigai [OPTIONS] FILE.v .. | CHIP.sheet | CHIP.aag   (marrubigai --help lists the options)"

# A second opinion on a design, by other tools: yosys makes registers of the array, and abc looks for the first frame in which the assertion
# breaks. It prints the verdict as the command does.
by_bmc3() { # depth, file, options of read_verilog, options of hierarchy
  local said
  yosys -Q -T -q -p "read_verilog -formal $3 $2; hierarchy -check $4; proc; flatten; delete -port o:*; chformal -early; chformal -cover -remove
    opt -keepdc -nodffe -nosdff; memory -nordff; opt -keepdc -nodffe -nosdff; setundef -undriven -anyseq; async2sync; dffunmap; techmap
    setundef -anyseq; opt -keepdc -nodffe -nosdff; aigmap; opt_clean; write_aiger -zinit $work/registers.aig" > "$work/oracle" 2>&1 || cat "$work/oracle"
  said=$(berkeley-abc -q "read_aiger $work/registers.aig; fold; bmc3 -F $(($1 + 1))" 2>&1)
  sed -nE "s/.* was asserted in frame ([0-9]+)\..*/is broken in frame \1 at the earliest/p; s/^No output asserted in .*/holds in frames 0 to $1, by the solver's word/p" <<< "$said"
}

### the command line
wrong() { ends "$1" 2 "" "$2
$usage" "${@:3}"; }
wrong "no file" "a file is wanted"
wrong "an option that is none" "'--none' is no option" --none chip.sheet
wrong "an option without its argument" "-k wants an argument" -k
for depth in x '' -1 256 1.0 99999999999; do wrong "depth '$depth'" "'$depth' is no depth for -k: a number from 0 to 255" -k "$depth" chip.sheet; done
wrong "from above the depth" "--from is above the depth" -k 3 --from 4 chip.sheet
wrong "a radix that is none" "'oct' is no radix: hex, dec or bin" --radix oct chip.sheet
wrong "a time that is none" "'0' is no time: seconds, above 0" --timeout 0 chip.sheet
wrong "a start that is none" "'x' is no start: a word (50 or 0x32), \`unknown\` or \`verilog\`" --start x chip.sheet
wrong "widths that are none" "'3': --widths wants address bits (1 to 12), a comma, data bits (1 to 32), and for two read ports ,2" --widths 3 chip.aag
wrong "three ports" "'3,8,3': --widths wants address bits (1 to 12), a comma, data bits (1 to 32), and for two read ports ,2" --widths 3,8,3 chip.aag
run --help; check "help: status" same 0 $?
check "help names every option of the parser" same "$(grep -oE '\{"[a-z]+", (no|required)_argument' command/options.cpp | cut -d '"' -f 2 | sort -u)" \
  "$(grep -oE -- '--[a-z]+' "$work/out" | sed 's/--//' | sort -u)"
run --version; check "the version names kit and solver" grep -qE '^marrubigai [0-9.]+, library proved with .+, solver CaDiCaL .+$' "$work/out"

### sheets: one run alone breaks this chip's property, in frame 1
{ line N 1 0 1; line M 1 1 0; line G 3 4; line A 0; line D 2; line C 1 1 7; } > "$work/files/chip.sheet"
printf 'input 2\nread 4\n' > "$work/files/chip.names"
shown='frame  input  read  memory
    0      1     0  reads 0 at 0 (start word), writes 1 at 0
    1      0     1  reads 1 at 0 (written in frame 0), writes 0 at 0  <- property broken'
ends "a sheet" 10 "chip.sheet: the property is broken in frame 1 at the earliest:
$shown" "" --radix dec --names chip.names chip.sheet
ends "a sheet, asked once" 10 "chip.sheet: the property is broken first in frame 1:
$shown" "" --any -k 1 --radix dec --names chip.names chip.sheet
ends "a sheet without names, in binary" 10 "chip.sheet: the property is broken in frame 1 at the earliest (words in binary):
frame  inputs  memory
    0       1  reads 0 at 0 (start word), writes 1 at 0
    1       0  reads 1 at 0 (written in frame 0), writes 0 at 0  <- property broken" "" --radix bin chip.sheet
ends "one word watched" 10 "chip.sheet: the property is broken in frame 1 at the earliest (words in hex):
frame  read  memory
    0     0  reads 0 at 0 (start word), writes 1 at 0
    1     1  reads 1 at 0 (written in frame 0), writes 0 at 0  <- property broken" "" --watch read --names chip.names chip.sheet
ends "a word that is none" 1 "" "--watch none: there is no such word; there are input, read" --watch none --names chip.names chip.sheet
ends "to depth 0" 20 "chip.sheet: the property holds in frame 0, by the solver's word" "" -k 0 chip.sheet
ends "asked once to depth 0" 20 "chip.sheet: the property holds in frame 0, by the solver's word" "" --any -k 0 chip.sheet
ends "from another start" 10 "chip.sheet: the property is broken in frame 0 at the earliest" "" -q --start 1 chip.sheet
ends "from an unknown start" 10 "chip.sheet: the property is broken in frame 0 at the earliest" "" -q --start unknown chip.sheet
ends "a start of two bits" 1 "" "--start 2: a word of this memory has 1 bits" --start 2 chip.sheet
ends "from frame 1" 10 "chip.sheet: the property is broken first in frame 1" "" -q --from 1 chip.sheet
ends "options of Verilog" 2 "" "--top is for Verilog, and this is none" --top x chip.sheet
ends "two sheets" 2 "" "one sheet or one text at a time: chip.sheet is too many" chip.sheet chip.sheet
cp "$work/files/chip.sheet" "$work/files/-q"
ends "a sheet by what is in it, with an odd name" 10 "-q: the property is broken in frame 1 at the earliest" "" -q -- -q

# two ports: the latch, 0 in frame 0 alone, is the address that is written at; the second port reads at 0, and one of these sheets' first port too
two_ports() { line N 1 1 1; line T 1 1 0; line L 1 0; line G 3 8; line A 4; line D 2; line B 0; line R 1; line C 1 "$1" 11; }
two_ports 0 > "$work/files/two.sheet"
two_ports 1 > "$work/files/both.sheet"
printf 'input 2\nread 8\n' > "$work/files/two.names"
ends "two addresses in a frame" 10 "two.sheet: the property is broken in frame 1 at the earliest (words in hex):
frame  input  read  memory
    0      1     0  reads 0 at 0 (start word), writes 1 at 0
    1      0     1  reads 1 at 0 (written in frame 0), writes 0 at 1  <- property broken" "" --names two.names two.sheet
ends "two ports that read" 10 "both.sheet: the property is broken in frame 1 at the earliest (words in hex):
frame  input  read  memory
    0      1     0  port 1 reads 0 at 0 (start word), port 2 reads 0 at 0 (start word), writes 1 at 0
    1      0     1  port 1 reads 0 at 1 (start word), port 2 reads 1 at 0 (written in frame 0), writes 0 at 1  <- property broken" "" --names two.names both.sheet
ends "two ports, from another start" 10 "two.sheet: the property is broken in frame 0 at the earliest" "" -q --start 1 two.sheet
ends "two ports, from an unknown start" 10 "two.sheet: note: the memory begins unknown, with 2 ports in turn (a frame is 2 of the sheet); 9 wires of at most 600 (1 inputs, 2 registers, 1 read bits, 5 gates)
two.sheet: the property is broken in frame 0 at the earliest (words in hex):
frame  input  read  memory
    0      0     1  reads 1 at 0 (unknown start), writes 0 at 0  <- property broken" "" --start unknown --names two.names two.sheet
# In each frame one of the ports reads: the input says which. The second port's bit is not 0 only where it is free.
{ line N 1 0 0; line T 1 1 0; line A 0; line D 0; line B 1; line R 2; line C 0 3 7; } > "$work/files/turns.sheet"
printf 'first 4\nsecond 6\n' > "$work/files/turns.names"
ends "the idle bits of one port" 10 "turns.sheet: the property is broken in frame 0 at the earliest (words in hex):
frame  first  second  memory
    0      0       -  port 1 reads 0 at 0 (start word)  <- property broken" "" --names turns.names turns.sheet

ends "the idle bits of one port, in turn" 10 "turns.sheet: the property is broken in frame 0 at the earliest" "" -q --start unknown turns.sheet
ends "ports in turn that both have idle bits" 1 "" "the memory begins unknown, and both of its ports read, but not in every frame: that is not built." --start unknown --names turns.names turns.sheet

# quiet frames are folded: a chain of latches, so that frame 4 is the first; nothing changes that is shown
{ line N 0 4 0; line M 1 1 0; line L 1 0; line L 2 0; line L 4 0; line L 6 0; line A 0; line D 0; line C 0 0 9; } > "$work/files/chain.sheet"
printf 'last 8\n' > "$work/files/chain.names"
ends "quiet frames" 10 "chain.sheet: the property is broken in frame 4 at the earliest (words in hex):
frame  last  memory
    0     0  idle
  ...  3 frames like this one
    4     1  idle  <- property broken" "" --names chain.names chain.sheet

# the examples, frame by frame, asked once and by the programs with a solver
agree() { # sheet, depth
  local said
  folder=$here run -q -k "$2" "$1"
  said=$(sed 's/the property holds in frames* \(.*\), by the solver.s word/no run breaks the property in frames \1/; s/frames 0$/frames 0 to 0/' "$work/out")
  same "$(earliest "$1" "$2")" "$said"
}
for sheet in examples/*/*.sheet; do
  for depth in 0 1 3 5; do check "$sheet to depth $depth, by the programs and by the command" agree "$sheet" "$depth"; done
  status=$(run_of "$sheet" 5 > /dev/null 2>&1; echo $?)
  check "$sheet asked once" same "$status" "$(folder=$here run --any -k 5 "$sheet"; echo $?)"
done

# two ports in turn, by abc on the sheet as Verilog with its array
for revision in faulty repaired; do
  sed '2s/.\{10\}$/          /' examples/seventh-revision/$revision.sheet > "$work/unknown.sheet"
  awk -f bench/sheet_to_verilog.awk "$work/unknown.sheet" > "$work/unknown.sv"
  folder=$here run -q -k 6 --start unknown examples/seventh-revision/$revision.sheet
  check "the seventh revision, $revision, from an unknown start, by other tools" same \
    "examples/seventh-revision/$revision.sheet: the property $(by_bmc3 6 "$work/unknown.sv" -sv "-top around")" "$(cat "$work/out")"
done

### refusals by their words, and files of other kinds
sed 's/^A         0/A         4/' "$work/files/chip.sheet" > "$work/files/loop.sheet"
ends "a memory loop" 1 "" "loop.sheet: refused 6 (memory loop) at line 4: A         4
An address or a read enable depends" loop.sheet
head -c 100 "$work/files/chip.sheet" > "$work/files/ragged.sheet"
ends "a ragged sheet" 1 "" "ragged.sheet: refused 1 (ragged)" ragged.sheet
kind() { # file, what it is
  ends "$1" 1 "" "$1: this is $2" "$1"
}
printf 'aig 1 1 0 1 0\n' > "$work/files/binary.aig"; kind binary.aig "a netlist in binary AIGER"
printf 'p cnf 1 1\n1 0\n' > "$work/files/formula.cnf"; kind formula.cnf "a formula in DIMACS CNF"
printf 'refused         6         3\n' > "$work/files/refused.sheet"; kind refused.sheet "no sheet but the refusal of an import or a conversion: refused 6 (memory loop) at line 3
An address"
page_words() { sed -n '/^## Refusals$/,/^## /p' docs/FORMAT.md | sed -n 's/^| \([0-9]*\) | \([a-z ]*\) | .*/\1 \2/p'; }
check "the words of refusals are those of docs/FORMAT.md" same "$(page_words)" "$(cut -f 1,2 --output-delimiter=' ' command/refusals.txt)"
printf 'hello\n' > "$work/files/hello"; kind hello "neither Verilog (.v, .sv) nor a sheet nor ASCII AIGER"
: > "$work/files/empty"; kind empty "neither"
ends "a missing file" 1 "" "none.sheet: it cannot be opened: No such file" none.sheet
ends "a folder" 1 "" ".: it cannot be read" .

### ASCII AIGER: the chip of above
{ printf 'aag 3 2 0 5 1\n2\n4\n0\n2\n1\n1\n7\n6 3 4\n'; } > "$work/files/bare.aag"
{ cat "$work/files/bare.aag"; printf 'i0 input\ni1 read_data\no0 address\no1 write_data\no2 write_enable\no3 read_enable\no4 property_holds\n'; } > "$work/files/chip.aag"
ends "a text" 10 "chip.aag: the property is broken in frame 1 at the earliest:
frame  input  memory
    0      1  reads 0 at 0 (start word), writes 1 at 0
    1      0  reads 1 at 0 (written in frame 0), writes 0 at 0  <- property broken" "" --start 0 --radix dec --watch input chip.aag
run --start 0 --radix dec chip.aag; check "a text: all words" grep -q '^frame  input  read_data  memory$' "$work/out"
run -q chip.aag; check "a text begins unknown" same "chip.aag: the property is broken in frame 0 at the earliest" "$(cat "$work/out")"
ends "a text without symbols" 1 "" "bare.aag: its symbols do not tell how wide the memory is" bare.aag
ends "a text with widths" 10 "bare.aag: the property is broken in frame 1 at the earliest" "" -q --start 0 --widths 1,1 bare.aag
ends "other widths" 1 "" "bare.aag: it has 2 inputs and 5 outputs; 2 address bits and 1 data bits need" --widths 2,1 bare.aag
sed 's/o2 write_enable/o2 read_enable/; s/o3 read_enable/o3 write_enable/' "$work/files/chip.aag" > "$work/files/exchanged.aag"
ends "ports exchanged" 1 "" "exchanged.aag: output 2 is read_enable, and write_enable is due" exchanged.aag
# a second port that reads at the input what the first has written: x in address 0, and the property is that no 1 is read there
{ printf 'aag 3 3 0 7 0\n2\n4\n6\n0\n2\n2\n1\n1\n1\n7\n'; } > "$work/files/bare2.aag"
{ cat "$work/files/bare2.aag"; printf 'i0 input\ni1 read_data\ni2 read_data2\no0 address\no1 write_data\no2 address2\no3 read_enable2\n'
  printf 'o4 write_enable\no5 read_enable\no6 property_holds\n'; } > "$work/files/two.aag"
ends "a text with two ports" 10 "two.aag: the property is broken in frame 1 at the earliest" "" -q --start 0 two.aag
run --start 0 --radix dec two.aag; check "its read word" grep -q '^frame  input  read_data2  memory$' "$work/out"
ends "its start" 10 "two.aag: the property is broken in frame 0 at the earliest" "" -q two.aag
ends "a text with two ports and widths" 10 "bare2.aag: the property is broken in frame 1 at the earliest" "" -q --start 0 --widths 1,1,2 bare2.aag
ends "too few ports" 1 "" "bare2.aag: it has 3 inputs and 7 outputs; 1 address bits and 1 data bits need at least 1 inputs and 5" --widths 1,1 bare2.aag
ends "too many ports" 1 "" "bare.aag: it has 2 inputs and 5 outputs; 1 address bits and 1 data bits with two ports need at least 2" --widths 1,1,2 bare.aag
sed 's/i1 read_data$/i1 read_data2/; s/i2 read_data2$/i2 read_data/' "$work/files/two.aag" > "$work/files/swapped.aag"
ends "read words exchanged" 1 "" "swapped.aag: input 1 is read_data2, and read_data is due" --start 0 swapped.aag
sed '1s/aag/agg/' "$work/files/chip.aag" > "$work/files/broken.aag"
ends "a damaged text" 1 "" "broken.aag: refused 11 (not aiger) at line 1" broken.aag
for macro in "" FAULTY; do
  to_aag "files/cut$macro" carton_counter ${macro:+-D$macro} examples/fifth-revision/carton_counter.v
done
ends "the carton counter cut by hand" 20 "cut.aag: the property holds in frames 0 to 4, by the solver's word" "" -q -k 4 --start 0 cut.aag
ends "its fault" 10 "cutFAULTY.aag: the property is broken in frame 1 at the earliest" "" -q -k 4 --start 0 cutFAULTY.aag

### Verilog as it is written: each design faulty and repaired
designs=$here/examples/verilog
folder=$designs
design() { # name, line of the assertion, frame of the fault, depth, options ..
  local name=$1 at="$1.v:$2" frame=$3 depth=$4
  shift 4
  run -q -k "$depth" "$@" "$name.v"
  check "$name: status" same 20 "$?"
  check "$name: it holds" grep -qxF "$name.v: assert $at holds in frames 0 to $depth, by the solver's word" "$work/out"
  run -k "$depth" -D FAULTY "$@" "$name.v"
  check "$name, faulty: status" same 10 "$?"
  check "$name, faulty: the frame" grep -qxF "$name.v: assert $at is broken in frame $frame at the earliest (words in hex):" "$work/out"
  check "$name, faulty: the table" grep -qE "^ +$frame .*  <- property broken$" "$work/out"
  run -q --confirm -k "$depth" -D FAULTY "$@" "$name.v"
  check "$name, faulty: the simulator sees it" grep -qxF "$name.v: assert $at: confirmed by iverilog on the original files" "$work/out"
  run -q --any -k "$frame" -D FAULTY "$@" "$name.v"
  check "$name, faulty, asked once" grep -qxF "$name.v: assert $at is broken first in frame $frame" "$work/out"
}
# the same by the other tools; a reset as an assumption around the design
second_opinion() { # name, assertion's line, depth, file, options of hierarchy, options of the command ..
  local name=$1 at="$1.v:$2" depth=$3 file=$4 hierarchy=$5 macro
  shift 5
  for macro in GOOD FAULTY; do
    run -q -k "$depth" -D $macro "$@" "$name.v"
    check "$name with $macro, by other tools" grep -qxF "$name.v: assert $at $(by_bmc3 "$depth" "$file" "-sv -D$macro -I$designs" "$hierarchy")" "$work/out"
  done
}
second_opinion carton_counter 44 6 "$designs/carton_counter.v" -auto-top
second_opinion histogram 24 9 "$designs/histogram.v" -auto-top
second_opinion lookup 51 9 "$designs/lookup.v" -auto-top
second_opinion registers 33 5 "$designs/registers.v" -auto-top
second_opinion queue 42 7 "$designs/queue.v" "-top queue -chparam BITS 2 -chparam WIDTH 4" -P BITS=2 -P WIDTH=4
around() { # design with its parameters, its other inputs
  printf '`include "%s.v"\nmodule around (input clock, %s);\n' "${1%% *}" "$2"
  printf 'reg reset = 1; always @(posedge clock) reset <= 0;\n%s dut (.*);\nendmodule\n' "$1"
}
around "stack #(.DEPTH(3), .WIDTH(4))" "input push, input pop, input [3:0] data, output [3:0] out" > "$work/stack.sv"
second_opinion stack 49 6 "$work/stack.sv" "-top around" --reset reset -P DEPTH=3 -P WIDTH=4
around "cache #(.INDEX(2), .TAG(3))" "input request, input [2:0] tag, input [1:0] index, output hit" > "$work/cache.sv"
second_opinion cache 43 8 "$work/cache.sv" "-top around" --reset reset -P INDEX=2 -P TAG=3
second_opinion register_file 33 5 "$designs/register_file.v" "-top register_file -chparam WIDTH 4" -P WIDTH=4
sed '/initial for/s/.*//' "$designs/queue.v" > "$work/unfilled.v"
second_opinion queue 42 7 "$work/unfilled.v" "-top queue -chparam BITS 2 -chparam WIDTH 4" --start unknown -P BITS=2 -P WIDTH=4
design carton_counter 44 1 4
design histogram 24 8 9
design lookup 51 9 9
design registers 33 1 5
design stack 49 3 6 --reset reset -P DEPTH=3 -P WIDTH=4
design cache 43 1 7 --reset reset -P INDEX=2 -P TAG=3
design queue 42 2 8 -P BITS=2 -P WIDTH=4
design queue 42 2 8 --start unknown -P BITS=2 -P WIDTH=4
design register_file 33 1 6
# two frames of a sheet whose ports take turns are one frame of the sheet with two ports, by a solver
check "the comparison of both is built" tool phases
for arguments in "queue.v" "-D FAULTY queue.v" "-P BITS=2 -P WIDTH=4 queue.v"; do
  check "two ports, and one in turn: $arguments" same 0 "$(cd "$designs" && "$work/phases" $arguments > "$work/compared"; echo $?)"
done
run -q -k 9 --cover cache.v:44 --reset reset -P INDEX=2 -P TAG=3 cache.v
check "a cover alone: status" same 10 "$?"
check "a cover alone" same "cache.v: cover cache.v:44 is reached in frame 6 at the earliest" "$(cat "$work/out")"
run -q -k 3 --cover cache.v:44 --reset reset -P INDEX=2 -P TAG=3 cache.v
check "a cover that is not reached: status" same 20 "$?"
check "a cover that is not reached" same "cache.v: cover cache.v:44 is not reached in frames 0 to 3, by the solver's word" "$(cat "$work/out")"
unset folder

# A small design, changed: what sed makes of it.
chip() {
  sed "$1" << 'verilog'
module chip (input clock, input reset, input we, input [1:0] a, input [1:0] b, input [3:0] d);
  reg [3:0] mem [0:3];
  integer i;
  initial for (i = 0; i < 4; i = i + 1) mem[i] = 5;
  wire [3:0] q = mem[a];
  reg [3:0] last = 0;
  always @(posedge clock) begin
    if (we) mem[a] <= d;
    last <= q;
  end
  always @(posedge clock) assert (last != 9);
endmodule
verilog
}
says() { # what, status, the verdict or message, what sed changes, options ..
  local what=$1 status=$2 said=$3
  chip "$4" > "$work/files/chip.v"
  shift 4
  run -q -k 4 "$@" chip.v
  check "$what: status" same "$status" "$?"
  check "$what: said" same "$said" "$(cat "$work/out" "$work/err" | head -c ${#said})"
  if [ $# -gt 0 ] || [ "$status" -eq 1 ] || [ -n "${alone-}" ]; then return; fi
  check "$what: by other tools" same "$(sed -E 's/^chip.v: assert .*(is broken|holds in)/\1/' "$work/out")" "$(by_bmc3 4 "$work/files/chip.v" "" -auto-top)"
}
says "a design" 10 "chip.v: assert chip.v:11 is broken in frame 2 at the earliest" ''
says "a start of one's own" 10 "chip.v: assert chip.v:11 is broken in frame 1 at the earliest" '' --start 9
says "an unknown start" 10 "chip.v: assert chip.v:11 is broken in frame 1 at the earliest" '4s/.*//'
says "a start that is too wide" 1 "--start 16: a word of memory mem (chip.v:2) has 4 bits" '' --start 16
says "a register that starts as 9" 10 "chip.v: assert chip.v:11 is broken in frame 0 at the earliest" 's/last = 0/last = 9/'
says "a register that starts unknown" 10 "chip.v: assert chip.v:11 is broken in frame 0 at the earliest" 's/last = 0/last/'
says "a reset" 10 "chip.v: assert chip.v:11 is broken in frame 5 at the earliest" 's/last <= q/last <= reset ? 0 : q/; s/if (we)/if (we \& !reset)/' --reset reset=3 -k 5
says "a reset the other way round" 10 "chip.v: assert chip.v:11 is broken in frame 3 at the earliest" 's/last <= q/last <= reset ? q : 0/; s/if (we)/if (we \& reset)/' --reset '!reset'
says "a reset that is none" 1 "--reset rst: the top module chip has no input of one bit with this name" '' --reset rst
says "a label" 10 "chip.v: assert no_nine (chip.v:11) is broken in frame 2 at the earliest" 's/assert/no_nine: assert/'
says "one of two, by its label" 10 "chip.v: assert no_nine (chip.v:11) is broken in frame 2 at the earliest" 's/assert/no_nine: assert/; s/^endmodule/always @* assert (1); endmodule/' --property no_nine
says "one of two, by its line" 20 "chip.v: assert chip.v:12 holds in frames 0 to 4, by the solver's word" 's/assert/no_nine: assert/; s/^endmodule/always @* assert (last < 16); endmodule/' --property chip.v:12
says "a property that is none" 1 "--property none: there is none of this name; there are chip.v:11" '' --property none
says "no assertion" 1 "chip: the design has no assert and no cover: there is nothing to ask about." '11d'
# an assumption counts in the frame that breaks and in all before it, and not behind it
says "an assumption" 20 "chip.v: assert chip.v:11 holds in frames 0 to 4, by the solver's word" 's/^endmodule/always @* assume (d != 9); endmodule/'
says "an assumption broken before" 20 "chip.v: assert chip.v:11 holds in frames 0 to 4, by the solver's word" 's/^endmodule/reg was = 0; always @(posedge clock) was <= we \& d == 9; always @* assume (!was); endmodule/'
says "an assumption broken behind" 10 "chip.v: assert chip.v:11 is broken in frame 2 at the earliest" 's/^endmodule/reg was = 0; always @(posedge clock) was <= last == 9; always @* assume (!was); endmodule/'
# assumptions that no run meets, from some frame on or at all, are told, so that nothing holds unseen for want of runs
steps='s/^endmodule/reg [2:0] step = 0; always @(posedge clock) step <= step + 1; always @* assume (step < 3); always @* assert (last < 16); endmodule/'
says "assumptions to frame 2" 20 "chip.v: assert chip.v:12 holds in frames 0 to 4, by the solver's word
chip.v: warning: no run meets the assumptions up to frame 3: of that frame and later ones nothing is said" "$steps" --property chip.v:12
says "as far as they can be met" 20 "chip.v: assert chip.v:12 holds in frames 0 to 2, by the solver's word" "$steps" --property chip.v:12 -k 2
check "as far as they can be met: no warning" same 1 "$(wc -l < "$work/out")"
says "for ever" 20 "chip.v: assert chip.v:12 holds in every frame, certified
chip.v: warning: no run meets the assumptions up to frame 3: of that frame and later ones nothing is said" "$steps" --property chip.v:12 --prove
says "as JSON" 20 '{"marrubigai"' "$steps" --property chip.v:12 --json
check "as JSON: the frame" same 3 "$("$work/json_value" "$work/out" chips 0 assumptions_end)"
says "a run that breaks needs no others" 10 "chip.v: assert chip.v:11 is broken in frame 2 at the earliest" 's/^endmodule/reg [2:0] step = 0; always @(posedge clock) step <= step + 1; always @* assume (step < 3); endmodule/'
check "a run that breaks needs no others: no warning" same 1 "$(wc -l < "$work/out")"
says "assumptions that are contrary" 1 "chip.v: no run meets the assumptions in frame 0: nothing can be said of the design." 's/^endmodule/always @* assume (we); always @* assume (!we); endmodule/'
says "a reset the wrong way round" 1 "chip.v: no run meets the assumptions in frame 0: nothing can be said of the design." 's/^endmodule/reg first = 1; always @(posedge clock) first <= 0; always @* assume (reset == !first); endmodule/' --reset reset
# arrays of a struct type, which yosys reads as one word; and what only looks like one
typed() { # what, the start of the message, lines of SystemVerilog
  printf '%s\n' "$3" > "$work/files/typed.sv"
  run -q -k 1 typed.sv
  check "$1: status" same 1 "$?"
  check "$1: said" same "$2" "$(head -c ${#2} "$work/err")"
}
pair='typedef struct packed { logic v; logic [2:0] x; } pair;'
typed "an array of a struct type" "typed.sv:2: an array of pair, which is a struct or a union: yosys reads it as one word." "$pair
module chip; pair words [4]; endmodule"
typed "a packed array of one" "typed.sv:3: an array of pair, which is a struct or a union" "/* $pair
*/ $pair // pair
module chip; pair [3:0] words; endmodule"
typed "one of several" "typed.sv:1: an array of pair, which is a struct or a union" "$pair module chip (input pair one); pair other, words [0:3]; endmodule"
typed "one of a package" "typed.sv:1: an array of pair, which is a struct or a union" "package p; $pair endpackage module chip; p::pair words [4]; endmodule"
typed "one within another" "typed.sv:1: an array of pair, which is a struct or a union" "$pair typedef struct packed { pair [1:0] two; } pairs;"
typed "an array of vectors of that name elsewhere" "chip: the design has no assert and no cover" "$pair
// pair words [4];
module chip; pair one, other; logic [2:0] words [4]; initial \$display(\"pair words [4]\"); endmodule"
for text in '/* pair' '"pair' '\'; do typed "a text that ends too early ($text)" "yosys made no module of it" "$text"; done
for text in 'typedef struct' 'typedef struct {' "$pair pair" "$pair pair words" "$pair pair words," 'typedef struct { } ;'; do
  typed "a text that ends too early ($text)" "typed.sv: yosys makes no netlist of it" "$text"
done
# memories that fit, and those that do not
says "the other address, clocked and at other times" 10 "chip.v: assert chip.v:11 is broken in frame 2 at the earliest" 's/wire .*//; s/last <= q/else last <= mem[b]/; s/<= d;/<= d; /'
ports() { "$work/json_value" <(cd "$work/files" && "$sanitized" --json -q -k 2 chip.v) chips 0 memory ports; }
check "the other address, clocked and at other times: one port" same 1 "$(ports)"
says "two addresses" 10 "chip.v: assert chip.v:11 is broken in frame 2 at the earliest" 's/mem\[a\];/mem[b];/'
check "two addresses: two ports" same 2 "$(ports)"
says "two addresses, from a start of one's own" 10 "chip.v: assert chip.v:11 is broken in frame 1 at the earliest" 's/mem\[a\];/mem[b];/; 4s/.*//' --start 9
says "two reads, one at the address that is written at" 10 "chip.v: assert chip.v:11 is broken in frame 1 at the earliest" 's/last <= q/last <= q + mem[b]/; s/last != 9/last + q != 15/; s/if (we)/if (we \& d < 6)/'
check "two reads, one at the address that is written at: two ports" same 2 "$(ports)"
says "two reads that differ" 10 "chip.v: assert chip.v:11 is broken in frame 3 at the earliest" 's/last <= q/last <= q ^ mem[b]/; s/last != 9/last != 12/; s/if (we)/if (we \& d[3:2] != 3)/; s/= 5/= 0/'
says "reads at the first address and at another in turn" 10 "chip.v: assert chip.v:11 is broken in frame 2 at the earliest" 's/mem\[a\];/mem[we ? a : b];/; s/if (we)/if (d != 9)/; s/last != 9/last != 3/'
says "bits written by themselves, at another address" 10 "chip.v: assert chip.v:11 is broken in frame 3 at the earliest" 's/mem\[a\];/mem[b];/; s/mem\[a\] <= d/begin mem[a][1:0] <= d[1:0]; if (reset) mem[a][3:2] <= d[3:2]; end/; s/last != 9/last != 14/; s/if (we)/if (we \& d != 14)/'
says "an address with one wire twice" 10 "chip.v: assert chip.v:11 is broken in frame 2 at the earliest" 's/mem\[a\];/mem[b];/; s/mem\[a\] <= d/mem[{a[0], a[0]}] <= d/; s/last != 9/last != 9 | b != 3/'
says "an address that is never reached" 20 "chip.v: assert chip.v:11 holds in frames 0 to 4, by the solver's word" 's/mem\[a\];/mem[b];/; s/mem\[a\] <= d/mem[{a[0], a[0]}] <= d/; s/last <= q/last <= b == 2 ? q : 0/'
says "addresses with a constant" 10 "chip.v: assert chip.v:11 is broken in frame 2 at the earliest" 's/mem\[a\];/mem[{1'"'"'b1, b[0]}];/'
says "addresses that never meet" 20 "chip.v: assert chip.v:11 holds in frames 0 to 4, by the solver's word" 's/mem\[a\];/mem[{1'"'"'b1, b[0]}];/; s/mem\[a\] <= d/mem[{1'"'"'b0, a[0]}] <= d/'
says "a register before the address" 10 "chip.v: assert chip.v:11 is broken in frame 1 at the earliest" 's/wire .*/reg [1:0] at; wire [3:0] q = mem[at]; always @(posedge clock) at <= a;/; s/last != 9/q != 9/'
says "a read that counts for another assertion alone" 10 "chip.v: assert chip.v:11 is broken in frame 2 at the earliest" 's/^endmodule/always @* assert (mem[b] + mem[d[1:0]] < 31); endmodule/' --property chip.v:11
says "a memory that counts for another assertion alone" 10 "chip.v: assert chip.v:11 is broken in frame 1 at the earliest" 's/last <= q/mem[b] <= 1; last <= d/; s/^endmodule/always @* assert (q != 3); endmodule/' --property chip.v:11
alone=yes says "an index beyond the array, at another address" 20 "chip.v: assert chip.v:11 holds in frames 0 to 4, by the solver's word" 's/0:3/0:2/; s/mem\[a\];/mem[b];/; s/if (we)/if (we \& a == 3)/; s/i < 4/i < 3/'
says "two writes" 1 "chip.v:2: memory mem (4 words of 4 bits) is written at two addresses in one frame" 's/last <= q/mem[b] <= 1; last <= q/'
says "two writes of which one is made" 10 "chip.v: assert chip.v:11 is broken in frame 2 at the earliest" 's/if (we) mem\[a\] <= d/if (we) mem[a] <= d; else if (reset) mem[a] <= 9/'
says "bits written by themselves" 10 "chip.v: assert chip.v:11 is broken in frame 4 at the earliest" 's/mem\[a\] <= d/begin mem[a][1:0] <= d[1:0]; if (reset) mem[a][3:2] <= d[3:2]; end/; s/last != 9/last != 13/; s/= 5/= 1/' --reset '!reset=2' -k 5
# other tools take what is read beyond the array for undefined
alone=yes says "an index beyond the array" 20 "chip.v: assert chip.v:11 holds in frames 0 to 4, by the solver's word" 's/0:3/0:2/; s/if (we)/if (we \& a == 3)/; s/i < 4/i < 3/'
alone=yes says "an array that begins at 1" 10 "chip.v: assert chip.v:11 is broken in frame 2 at the earliest" 's/0:3/1:3/; s/i = 0; i < 4/i = 1; i < 4/; s/if (we)/if (we \& a == 3)/'
says "contents that differ" 1 "memory mem (chip.v:2) begins with contents that differ from word to word" 's/= 5/= i/'
says "no memory" 1 "chip: the design has no memory that is written and read" 's/mem\[a\]/mem[0]/; s/if (we) mem\[a\]/last/'
says "an address from the word read" 1 "chip.v:2: the address of memory mem depends on a word that it reads in the same frame." 's/mem\[a\]/mem[at]/; s/wire \[3:0\] q/wire [3:0] q; wire [1:0] at = d[0] ? q[1:0] : a; assign q/'
# addresses that have one port of the sheet in turn
in_turn() { # how many, what, status, the verdict, what sed changes, options ..
  local many=$1
  shift
  says "$@"
  check "$1: ports in turn" same "$many $many" "$(ports) $("$work/json_value" <(cd "$work/files" && "$sanitized" --json -q -k 2 "${@:5}" chip.v) chips 0 memory phases)"
  [ "$2" -eq 20 ] && return
  run -q -k 4 --confirm "${@:5}" chip.v
  check "$1: the simulator sees it" grep -qxF "chip.v: assert chip.v:11: confirmed by iverilog on the original files" "$work/out"
}
broken_in() { echo "chip.v: assert chip.v:11 is broken in frame $1 at the earliest"; }
holding="chip.v: assert chip.v:11 holds in frames 0 to 4, by the solver's word"
apart='s/mem\[a\];/mem[b];/' unfilled='4s/.*//'
in_turn 2 "two addresses, from an unknown start" 10 "$(broken_in 1)" "$apart; $unfilled"
says "two addresses, --start unknown" 10 "$(broken_in 1)" "$apart" --start unknown
in_turn 2 "a word that was written, from an unknown start" 10 "$(broken_in 2)" "$apart; $unfilled; s/last <= q/last <= seen[b] ? q : 0; if (we) seen[a] <= 1/; s/reg \[3:0\] last/reg [3:0] seen = 0; reg [3:0] last/; s/last != 9/last != 14 | d != 7/; s/if (we) mem/if (we \& d[0]) mem/; s/mem\[a\] <= d/mem[a] <= d + {3'b0, was}/; s/integer i;/reg was = 0; always @(posedge clock) was <= reset;/"
in_turn 2 "a word of two frames before, from an unknown start" 20 "$holding" "$apart; $unfilled; s/last <= q;/last <= wa == b \& ww \& q != wd ? 9 : 0; ww <= we; wa <= a; wd <= d;/; s/reg \[3:0\] last/reg ww = 0; reg [1:0] wa = 0; reg [3:0] wd = 0; reg [3:0] last/"
in_turn 2 "an address that begins unknown" 10 "$(broken_in 1)" "s/mem\[a\];/mem[at];/; $unfilled; s/reg \[3:0\] last/reg [1:0] at; always @(posedge clock) at <= at + 1; reg [3:0] last/; s/last != 9/last != 9 | at != 2/"
in_turn 2 "a read at the address that is written at, from an unknown start" 10 "$(broken_in 0)" "$unfilled; s/last <= q/last <= q + mem[b]/; s/last != 9/last + q != 15/; s/if (we)/if (we \& d < 6)/"
in_turn 2 "bits written by themselves, from an unknown start" 10 "$(broken_in 1)" "$apart; $unfilled; s/mem\[a\] <= d/begin mem[a][1:0] <= d[1:0]; if (reset) mem[a][3:2] <= d[3:2]; end/; s/last != 9/last != 14/"
in_turn 2 "an assumption about what is read" 20 "$holding" "$apart; $unfilled; s/^endmodule/always @* assume (q != 9); endmodule/"
in_turn 2 "an assumption broken before, in turn" 20 "$holding" "$apart; $unfilled; s/^endmodule/reg was = 0; always @(posedge clock) was <= q == 9; always @* assume (!was); endmodule/"
in_turn 2 "an assumption broken behind, in turn" 10 "$(broken_in 1)" "$apart; $unfilled; s/^endmodule/reg was = 0; always @(posedge clock) was <= last == 9; always @* assume (!was); endmodule/"
in_turn 3 "two reads and a write at three addresses" 10 "$(broken_in 2)" 's/if (we) mem\[a\]/if (we) mem[d[1:0]]/; s/last <= q/last <= q + mem[b]/'
in_turn 3 "three addresses, from an unknown start" 10 "$(broken_in 3)" "$unfilled; s/if (we) mem\\[a\\]/if (we \& d[3:2] != 3) mem[d[1:0]]/; s/last <= q/n <= n + 1; last <= n == 2 ? q ^ mem[b] : 0/; s/last != 9/last != 15/; s/reg \[3:0\] last/reg [1:0] n = 0; reg [3:0] last/"
in_turn 3 "three reads" 10 "$(broken_in 2)" 's/last <= q/last <= q + mem[b] + mem[d[1:0]]/'
in_turn 5 "five addresses" 10 "$(broken_in 2)" 's/if (we) mem\[a\]/if (we) mem[{reset, we}]/; s/last <= q/last <= q ^ mem[b] ^ mem[d[1:0]] ^ mem[d[3:2]]/'
says "six addresses" 1 "chip.v:2: memory mem (4 words of 4 bits) is read and written at more than 5 addresses in one frame, which is the most." 's/if (we) mem\[a\]/if (we) mem[{reset, we}]/; s/last <= q/last <= q ^ mem[b] ^ mem[d[1:0]] ^ mem[d[3:2]] ^ mem[d[2:1]]/'
says "a reset, in turn" 10 "$(broken_in 4)" "$apart; $unfilled; s/last <= q/last <= reset ? 0 : q/" --reset reset=3
says "from a later frame, in turn" 10 "chip.v: assert chip.v:11 is broken first in frame 3" "$apart; $unfilled; s/last <= q/n <= n + 1; last <= n == 2 ? q : 0/; s/reg \[3:0\] last/reg [1:0] n = 0; reg [3:0] last/" --from 2
says "to an earlier frame, in turn" 20 "chip.v: assert chip.v:11 holds in frames 1 to 2, by the solver's word" "$apart; $unfilled; s/last <= q/n <= n + 1; last <= n == 2 ? q : 0/; s/reg \[3:0\] last/reg [1:0] n = 0; reg [3:0] last/" --from 1 -k 2
says "asked once, in turn" 10 "chip.v: assert chip.v:11 is broken first in frame" "$apart; $unfilled" --any
chip "$apart; $unfilled; s/^endmodule/always @* cover (last == 9); endmodule/" > "$work/files/chip.v"
ends "a cover, in turn" 10 "chip.v: cover chip.v:12 is reached in frame 1 at the earliest" "" -q --cover chip.v:12 chip.v
ends "as deep as can be, in turn" 10 "$(broken_in 1)" "" -q --property chip.v:11 -k 127 chip.v
ends "deeper than that" 2 "" "-k 128: a frame of this design is 2 of its sheet, which can have 256: 127 is the most" -k 128 chip.v
second='s/^endmodule/reg [1:0] small [0:1]; always @(posedge clock) if (we) small[b[0]] <= a; always @* assert (small[b[0]] != 2 | last != 9); endmodule/'
says "two memories" 1 "chip: the design has 2 memories, and one can stay a memory. Say which; the others become registers, which fits where they are small:
  --memory mem   chip.v:2, 4 words of 4 bits
  --memory small   chip.v:12, 2 words of 2 bits" "$second"
# arrays with as many words each are one memory, whose words are theirs side by side
flags() { echo "11d; s/^endmodule/reg flag [0:3]; initial for (i = 0; i < 4; i = i + 1) flag[i] = 0; always @(posedge clock) if (we) flag[$1] <= d[0]; always @* assert ($2); endmodule/"; }
says "two arrays at one index" 10 "chip.v: assert chip.v:11 is broken in frame 1 at the earliest" "$(flags a '!flag[a] || q != 9')"
says "two arrays, repaired" 20 "chip.v: assert chip.v:11 holds in frames 0 to 4, by the solver's word" "$(flags a '!flag[a] || q[0]')"
says "one of them read elsewhere" 20 "chip.v: assert chip.v:11 holds in frames 0 to 4, by the solver's word" "$(flags a '!flag[b] || a != b || q[0]')"
says "one of them read elsewhere, with a fault" 10 "chip.v: assert chip.v:11 is broken in frame 2 at the earliest" "$(flags a '!flag[b] || q[0]')"
says "one of them written elsewhere" 1 "chip.v:2: memory mem and flag (4 words of 5 bits) is written at two addresses in one frame, and a second write port is not built.
Write one word in a step of the clock.
Or let one array stay a memory; the others become registers, which fits where they are small:
  --memory mem   4 words of 4 bits
  --memory flag   4 words of 1 bits" "$(flags b '!flag[a] || q[0]')"
says "one of them, as it says" 10 "chip.v: assert chip.v:11 is broken in frame 2 at the earliest" "$(flags b '!flag[a] || q[0]')" --memory mem
says "both begin unknown" 10 "chip.v: assert chip.v:11 is broken in frame 0 at the earliest
chip.v: assert chip.v:11: confirmed by iverilog on the original files" "$(flags a '!flag[a] || q != 9')" --start unknown --confirm
says "one of them begins unknown" 1 "memory mem and flag (chip.v:2) begins with words of which some bits are given and others are unknown" "4s/.*//; $(flags a '!flag[a] || q[0]')"
printf '!flag[@] | mem[@][0]\n' > "$work/files/arrays.facts"
says "a fact about two arrays" 20 "chip.v: assert chip.v:11 holds in every frame, certified" "$(flags a '!flag[a] || q[0]')" --prove --invariant arrays.facts
says "one of them registers" 10 "chip.v: assert chip.v:11 is broken in frame 2 at the earliest
chip.v: assert chip.v:12 is broken in frame 2 at the earliest" "$second" --memory mem
says "a memory that is none" 1 "--memory none: the design has no memory of this name" "$second" --memory none
says "two clocks" 1 "chip.v:11: it takes the falling edge of clock, and chip.v:2 the rising edge of clock" 's/posedge clock) assert/negedge clock) last2 <= last; reg [3:0] last2 = 0; always @* assert/; s/(last != 9)/(last2 != 9)/'
says "a clock that is read" 1 "the clock clock is read as data too; within a frame it has no value" 's/last != 9/last != 9 | clock/'
says "a gated clock" 1 "chip.v:2: the clock gated is no input of the top module chip" 's/always @(posedge clock) begin/wire gated = clock \& reset; always @(posedge gated) begin/'
twice() { says "$1" 1 "chip.v:" "s/last != 9/last != 9 \\& twice/; s/wire \\[3:0\\] q/wire twice; assign twice = $2; assign twice = ~(we \\& reset); wire [3:0] q/"; }
twice "two drivers" "we \\& d[0]"
check "two drivers: which" grep -qE "^chip.v:[0-9]+: the wire twice has a second driver" "$work/err"
twice "two drivers, one an input" we
says "a wire without a driver" 10 "chip.v: assert chip.v:11 is broken in frame 0 at the earliest" 's/last != 9/last != 9 \& open/; s/wire \[3:0\] q/wire open; wire [3:0] q/'
square() { echo "reg [11:0] $1 = 0; always @(posedge clock) $1 <= $1 * $1 + q + $2; always @* assert ($1 != 1023);"; }
says "too much together" 20 "chip.v: assert chip.v:11 holds in frames 0 to 1, by the solver's word
chip.v: assert chip.v:12 holds in frames 0 to 1, by the solver's word
chip.v: assert chip.v:13 holds in frames 0 to 1, by the solver's word" "s/^endmodule/$(square p 3)\\n$(square r 5)\\nendmodule/" -k 1
run --json -k 1 chip.v
check "too much together: each is a chip of its own" same "list of 3" "$("$work/json_value" "$work/out" chips)"
says "too much" 1 "what is asked about depends on " 's/last <= q/last <= q; p <= p * p + q/; s/reg \[3:0\] last/reg [31:0] p = 0; reg [3:0] last/; s/last != 9/p != 55/'
# What does not fit as yosys makes it and fits when abc has rewritten it: faulty and repaired, by other tools too.
folder=$designs
design queue 42 2 6 -P BITS=6 -P WIDTH=30
second_opinion queue 42 3 "$designs/queue.v" "-top queue -chparam BITS 6 -chparam WIDTH 30" -P BITS=6 -P WIDTH=30
rm -rf "$work/kept"
run --json -k 3 --keep "$work/kept" -D FAULTY -P BITS=6 -P WIDTH=30 queue.v
unset folder
check "rewritten: that is told" grep -qE '[0-9]+ wires of at most 600 \([^)]*\), rewritten by abc from 6[0-9]+ wires' "$work/out"
in_frame() { value chips 0 properties 0 run "$1" words "$2"; }
check "rewritten: a signal that is gone" same 0 "$(grep -c '^getting ' "$work/kept/1.names")"
for frame in 0 1 2; do
  check "rewritten: the signal that is gone is shown, frame $frame" same "$(in_frame $frame getting)" \
    "$([ "$(in_frame $frame get)" = 1 ] && [ "$(in_frame $frame first)" != "$(in_frame $frame behind)" ] && echo 1 || echo 0)"
done
# The sheet is the circuit that abc was given (latches cut; in the order of an exported file), and not another one's.
abc() { printf '#!/bin/sh\n%s\n' "$1" > "$work/abc/berkeley-abc"; chmod +x "$work/abc/berkeley-abc"; }
mkdir "$work/abc"
abc "cp \$(expr \"\$2\" : 'read_aiger \([^;]*\);') $work/given.aig; exec $(command -v berkeley-abc) \"\$@\""
rewritten='s/last <= q/last <= q; p <= p * p + q/; s/reg \[3:0\] last/reg [12:0] p = 0; reg [3:0] last/; s/last != 9/p != 30/'
compared() { # what sed changes besides: what abc says of the rewritten sheet and the circuit that it was given before
  chip "$rewritten; $1" > "$work/files/chip.v"
  path=$work/abc:$PATH run -q -k 0 --keep "$work/kept" chip.v
  [ -f "$work/first.aig" ] || cp "$work/given.aig" "$work/first.aig"
  "$export_aig" < "$work/kept/1.sheet" > "$work/sheet.aig"
  (cd "$work" && berkeley-abc -q "read_aiger sheet.aig; comb; write_aiger sheet.aig; cec -n first.aig sheet.aig" 2>&1) | grep -oE 'are (equivalent|NOT EQUIVALENT)'
}
check "rewritten: the same circuit" same "are equivalent" "$(compared '')"
check "rewritten: not another one" same "are NOT EQUIVALENT" "$(compared 's/p \* p + q/p * p - q/')"
says "rewritten, with a fault" 10 "chip.v: assert chip.v:11 is broken in frame 2 at the earliest" "$rewritten"
abc 'exit 3'
path=$work/abc:$PATH says "not rewritten" 1 "what is asked about depends on 643 wires (7 inputs, 13 registers, 4 read bits, 619 gates), and 600 is the most; not rewritten: berkeley-abc does not rewrite it." "$rewritten"
abc 'echo aig 24 24 0 1 0 > /dev/fd/3'
path=$work/abc:$PATH says "rewritten to something else" 1 "what is asked about depends on 643 wires (7 inputs, 13 registers, 4 read bits, 619 gates), and 600 is the most; not rewritten: berkeley-abc: what it wrote is no netlist" "$rewritten"
abc 'exec sleep 60'
path=$work/abc:$PATH ends "out of time while abc rewrites" 30 "" "out of time while berkeley-abc was at work; nothing is known of any property" --timeout 5 chip.v
says "no Verilog" 1 "chip.v: yosys makes no netlist of it:
  yosys: chip.v:" 's/endmodule//'
says "another module" 1 "chip.v: yosys makes no netlist of it:" '' --top chop
ends "a file that is no Verilog beside it" 2 "" "chip.sheet: only Verilog (.v, .sv) can be given in several files" chip.v chip.sheet
chip 's/assert (last/assert (logic_bit || last/; s/reg \[3:0\] last/logic logic_bit = 0; reg [3:0] last/' > "$work/files/chip.sv"
ends "SystemVerilog" 10 "chip.sv: assert chip.sv:11 is broken in frame 2 at the earliest" "" -q -k 4 chip.sv
cp "$work/files/chip.sv" "$work/files/a b.sv"
ends "a name with a space" 10 "a b.sv: assert a b.sv:11 is broken in frame 2 at the earliest" "" -q -k 4 "a b.sv"
chip 's/assert/no_nine: assert/' > "$work/files/labelled.v"
run -q -k 4 --confirm labelled.v
check "a label that the simulator cannot take" grep -qF "not tried by iverilog, which cannot take the files: labelled.v:11" "$work/out"
printf '#!/bin/sh\nexit 0\n' > "$work/vvp"; chmod +x "$work/vvp"; mkdir "$work/deaf"; mv "$work/vvp" "$work/deaf"
chip '' > "$work/files/chip.v"
path=$work/deaf:$PATH ends "a simulator that sees nothing" 1 "" "chip.v:11: iverilog, fed the run that was found, sees no failure of this assertion in frame 2." -q -k 4 --confirm chip.v
mkdir "$work/tmp"
TMPDIR=$work/tmp run -q -k 4 --confirm chip.v
check "nothing is left behind" rmdir "$work/tmp"
mkdir "$work/without"
path=$work/without ends "no yosys" 1 "" "yosys is missing" chip.sv

### interrupts and time: a search that would take long stops at once and says how deep it got
(cd "$designs" && "$plain" -q -k 0 --keep "$work/slow" --property cache.v:43 -P INDEX=3 -P TAG=12 --reset reset cache.v) > /dev/null
depth_is_told() { grep -qE "^$work/slow/1.sheet: the property: $1; it holds in frames 0 to [0-9]+, by the solver's word$" "$work/out"; }
"$plain" --timeout 2 -q -k 255 "$work/slow/1.sheet" > "$work/out" 2> "$work/err"
check "out of time: status" same 30 $?
check "out of time: said" depth_is_told "out of time"
for signal in INT TERM HUP; do
  "$plain" -q -k 255 "$work/slow/1.sheet" > "$work/out" 2> "$work/err" &
  sleep 2
  kill -$signal $!
  wait $!
  check "SIG$signal: status" same 30 $?
  check "SIG$signal: said" depth_is_told interrupted
done
mkdir "$work/bin"
printf '#!/bin/sh\nsleep 60\n' > "$work/bin/yosys"; chmod +x "$work/bin/yosys"
began=$SECONDS
path=$work/bin:$PATH ends "out of time while yosys reads" 30 "" "out of time while yosys was at work; nothing is known of any property" --timeout 0.5 chip.v
check "it stops at once" [ $((SECONDS - began)) -le 10 ]

### what it writes
run --vcd run.vcd --names two.names both.sheet
check "the waveform of two ports has both" same 3 "$(grep -cE '^\$var wire 1 . (address2|read_data2|RE2) \$end$' "$work/files/run.vcd")"
ends "the sheet as the waveform" 2 "" "the waveform would be written over chip.sheet" --vcd chip.sheet chip.sheet
ends "a waveform that cannot be written" 1 "" "none/run.vcd: it cannot be written" --vcd none/run.vcd chip.sheet
rm -f "$work/files/run.vcd"
run --vcd run.vcd -k 0 chip.sheet
check "no run, no waveform" [ ! -e "$work/files/run.vcd" ]
folder=$designs run -D FAULTY --vcd "$work/stack.vcd" --reset reset -k 4 stack.v
check "the waveform has the hierarchy" same 1 "$(grep -c '^\$scope module memory \$end$' <(sed -n '/module words/,$p' "$work/stack.vcd"))"
if command -v vcd2fst > /dev/null; then check "GTKWave's converter reads it" vcd2fst "$work/stack.vcd" "$work/stack.fst" > /dev/null; fi
folder=$designs run -D FAULTY --start unknown -P BITS=2 -P WIDTH=2 -k 3 --vcd "$work/queue.vcd" --keep "$work/turns" queue.v
check "the waveform of ports in turn has both" same 3 "$(grep -cE '^\$var wire [12] [^ ]+ (address2 \[1:0\]|read_data2 \[1:0\]|RE2) \$end$' "$work/queue.vcd")"
check "the waveform of ports in turn has the design's frames" same "#0 #1 #2 #3" "$(echo $(grep '^#' "$work/queue.vcd"))"
check "the sheet of ports in turn, in its own frames" same "$work/turns/1.sheet: the property is broken in frame 5 at the earliest" "$("$plain" -q -k 7 "$work/turns/1.sheet")"
run --keep kept -q chip.sheet
check "the sheet that is kept" cmp "$work/files/chip.sheet" "$work/files/kept/1.sheet"
(cd "$designs" && "$sanitized" -D FAULTY -q -k 2 --keep "$work/kept" carton_counter.v) > /dev/null
check "the sheet of a design, by the programs" same "$work/kept/1.sheet: the property is broken in frame 1 at the earliest" "$(earliest "$work/kept/1.sheet" 3)"
(cd "$work/files" && "$sanitized" chip.sheet) > /dev/full 2> "$work/err"
check "a full disk: status" same 1 $?
check "a full disk: said" grep -q "^standard output cannot be written" "$work/err"

run --json --radix dec --names chip.names chip.sheet
check "JSON: status" same "10 broken 1 run 0 0 solver" "$(echo $(value status; for at in verdict frame by; do value chips 0 properties 0 $at; done; for at in from to by; do value chips 0 properties 0 safe $at; done))"
check "JSON: the run" same "list of 2 1 0 1 0 0 1" "$(echo $(value chips 0 properties 0 run; value chips 0 properties 0 run 0 words input; value chips 0 properties 0 run 0 words read
  value chips 0 properties 0 run 0 memory write; value chips 0 properties 0 run 1 memory written_in; value chips 0 properties 0 run 1 holds; value chips 0 properties 0 run 1 memory read))"
run --json --names two.names both.sheet
check "JSON of two ports" same "2 1 0 0 null of 0 0 1 0" "$(echo $(value chips 0 memory ports; for at in address read write; do value chips 0 properties 0 run 1 memory $at; done
  value chips 0 properties 0 run 1 memory written_in; for at in address read written_in; do value chips 0 properties 0 run 1 memory second $at; done))"
run --json --names two.names two.sheet
check "JSON of a port that only writes" same "1 0 object of 3" "$(echo $(for at in address write second; do value chips 0 properties 0 run 1 memory $at; done))"
check "JSON of a port that only writes: it reads nothing" [ -z "$(value chips 0 properties 0 run 1 memory read)" ]
folder=$designs run --json -k 3 histogram.v
check "JSON of a design" same "20 counts and seen 3 4 0 assert holds histogram.v:24 cover reached" \
  "$(echo $(value status; value chips 0 memory name; value chips 0 memory address_bits; value chips 0 memory data_bits; value chips 0 memory start
    for at in kind verdict source; do value chips 0 properties 0 $at; done; for at in kind verdict; do value chips 0 properties 1 $at; done))"

### certificates: what holds is certified, and again by the file alone
certified() { # what, what is said, options and file ..; once: how it is searched
  local what=$1 said=$2
  shift 2
  rm -f "$work/made"
  run -q ${once-} --certificate "$work/made" "$@"
  check "$what, certified: status" same 20 $?
  check "$what, certified" same "$said, certified" "$(cat "$work/out")"
  run -q --check "$work/made" "$@"
  check "$what, checked: status" same 20 $?
  check "$what, checked" same "$said, certified" "$(cat "$work/out")"
}
not_certified() { # what, options and file ..
  local what=$1
  shift
  run -q --check "$work/made" "$@"
  check "$what is not certified: status" same 1 $?
  check "$what is not certified: said" grep -qE "^$work/made: this does not certify that .* in the frames 0 to [0-9]+: of its [0-9]+ lemmas, the one numbered [0-9]+ from 0 is the first" "$work/err"
  check "$what is not certified: nothing else" [ ! -s "$work/out" ]
}
folder=$designs
certified "a design" "carton_counter.v: assert carton_counter.v:44 holds in frames 0 to 4" -k 4 carton_counter.v
not_certified "a design with a fault" -k 4 -D FAULTY carton_counter.v
not_certified "another depth" -k 5 carton_counter.v
not_certified "a lower depth" -k 3 carton_counter.v
not_certified "another start" -k 4 --start 1 carton_counter.v
run -q -k 0 --keep "$work/held" carton_counter.v
check "the sheet that it is about" same "$work/held/1.sheet: the property holds in frames 0 to 4, certified" "$("$plain" -q -k 4 --check "$work/made" "$work/held/1.sheet")"
certified "a design with two ports" "queue.v: assert queue.v:42 holds in frames 0 to 5" -k 5 -P BITS=2 -P WIDTH=4 queue.v
not_certified "a design with two ports and a fault" -k 5 -P BITS=2 -P WIDTH=4 -D FAULTY queue.v
certified "a design with ports in turn" "queue.v: assert queue.v:42 holds in frames 0 to 5" -k 5 --start unknown -P BITS=2 -P WIDTH=4 queue.v
not_certified "a design with ports in turn and a fault" -k 5 --start unknown -P BITS=2 -P WIDTH=4 -D FAULTY queue.v
ends "ports in turn, deeper than a sheet" 2 "" "-k 128: a frame of this design is 2 of its sheet" -k 128 --check "$work/made" --start unknown -P BITS=2 -P WIDTH=4 queue.v
not_certified "ports in turn, another depth" -k 4 --start unknown -P BITS=2 -P WIDTH=4 queue.v
run -q -k 0 --start unknown -P BITS=2 -P WIDTH=4 --keep "$work/turns" queue.v
check "the sheet of ports in turn that it is about" same "$work/turns/1.sheet: the property holds in frames 0 to 11, certified" "$("$plain" -q -k 11 --check "$work/made" "$work/turns/1.sheet")"
once=--any certified "a register file, asked once" "register_file.v: assert register_file.v:33 holds in frames 0 to 4" -k 4 register_file.v
certified "a design that begins unknown" "registers.v: assert registers.v:33 holds in frames 0 to 4" -k 4 registers.v
not_certified "a design that begins unknown, with a fault" -k 4 -D FAULTY registers.v
once=--any certified "a design with a reset, asked once" "cache.v: assert cache.v:43 holds in frames 0 to 6" -k 6 --property cache.v:43 --reset reset -P INDEX=2 -P TAG=3 cache.v
certified "a cover" "cache.v: cover cache.v:44 is not reached in frames 0 to 3" -k 3 --cover cache.v:44 --reset reset -P INDEX=2 -P TAG=3 cache.v
several="a certificate is about one property; choose by --property histogram.v:24, --cover histogram.v:25"
ends "a certificate of several" 2 "" "--certificate: $several" --certificate "$work/none" histogram.v
ends "a check of several" 2 "" "--check: $several" --check "$work/made" histogram.v
certified "one of several" "histogram.v: assert histogram.v:24 holds in frames 0 to 9" -k 9 --property histogram.v:24 histogram.v
folder=$here
for revision in fourth fifth sixth seventh; do
  sheet=examples/$revision-revision/repaired.sheet
  certified "$sheet" "$sheet: the property holds in frames 0 to 6" -k 6 $sheet
  for fault in examples/$revision-revision/{faulty,unknown}.sheet; do [ -e "$fault" ] && not_certified "$fault" -k 6 "$fault"; done
done
sheet=examples/sixth-revision/repaired.sheet
check "that sheet begins unknown" same "M         3         8" "$(sed -n 2p $sheet | sed 's/ *$//')"
once=--any certified "a sheet that begins unknown, asked once" "$sheet: the property holds in frames 0 to 6" -k 6 $sheet
unset folder
certified "one frame" "chip.sheet: the property holds in frame 0" -k 0 chip.sheet
certified "a text" "cut.aag: the property holds in frames 0 to 4" -k 4 --start 0 cut.aag
{ line N 0 0 0; line M 1 1 0; line A 0; line D 0; line C 0 0 1; } > "$work/files/true.sheet"
certified "a property that is a constant" "true.sheet: the property holds in frames 0 to 2" -k 2 true.sheet
run -k 4 --certificate "$work/made" "$here/examples/fifth-revision/repaired.sheet"
check "what it rests on is told" grep -qE "repaired.sheet: note: $work/made, [0-9]+ lemmas with [0-9]+ hints, was checked by marrubigai_certify, which is proved: no solver has to be believed$" "$work/out"
(cd "$designs" && "$sanitized" -k 4 --certificate "$work/made" carton_counter.v) > "$work/out"
check "what it rests on of Verilog" grep -q "no solver has to be believed; that the sheet which it is about is the design's has to be (--keep writes it)$" "$work/out"
for way in certificate check; do
  run --json -k 4 --$way "$work/made" "$here/examples/fifth-revision/repaired.sheet"
  check "JSON of a certificate, --$way" same "20 holds 0 4 certificate $work/made" "$(echo $(value status; value chips 0 properties 0 verdict; for at in from to by; do value chips 0 properties 0 safe $at; done
    value chips 0 properties 0 certificate file))"
done
run -q -k 4 "$here/examples/fifth-revision/repaired.sheet"
check "without a certificate it is the solver's word" grep -q ", by the solver's word$" "$work/out"
rm -f "$work/none"
run -q --certificate "$work/none" chip.sheet
check "what is broken has no certificate: status" same 10 $?
check "what is broken has no certificate" [ ! -e "$work/none" ]

# the command line, and files that are no certificates
from="a certificate is about all frames from 0 on: --certificate goes without --from"
wrong "a certificate from frame 1" "$from" --from 1 --certificate x chip.sheet
for option in "--certificate y" --prove --any "--from 1" "--vcd y" --confirm; do
  wrong "--check and $option" "--check looks for no run: it goes without ${option% *}" --check x $option chip.sheet
done
ends "the sheet as the certificate" 2 "" "the certificate would be written over chip.sheet" --certificate chip.sheet chip.sheet
ends "the waveform as the certificate" 2 "" "the certificate would be written over the waveform both" --vcd both --certificate both chip.sheet
ends "a certificate that cannot be written" 1 "" "none/x: it cannot be written" --certificate none/x chip.sheet
TMPDIR=$work/none ends "no place for the refutation" 1 "" "$work/none: no file can be made there" -k 0 --certificate x chip.sheet
limited() { # the size of files is, to 4 KB
  (trap '' XFSZ; ulimit -f 4; "$sanitized" -q -k 6 --certificate "$work/none" examples/fifth-revision/repaired.sheet) > "$work/out" 2> "$work/err"
}
limited
check "no room for the refutation: status" same 1 $?
check "no room for the refutation: said" grep -q "^the solver's refutation could not be written: the disk is full, or a limit reached" "$work/err"
check "no room for the refutation: nothing is written" [ ! -s "$work/out" -a ! -e "$work/none" ]
mkdir "$work/tmp"
TMPDIR=$work/tmp run -q -k 0 --certificate x chip.sheet
check "no refutation is left behind" rmdir "$work/tmp"
no() { # what, file, why
  ends "$1" 1 "" "$2: this is no certificate: $3" -k 0 --check "$2" chip.sheet
}
first="it does not begin with a line 'marrubigai certificate 1' and two numbers, or 'marrubigai certificate for ever 1' and four"
counts="its first line is neither 'marrubigai certificate 1' and two numbers nor 'marrubigai certificate for ever 1' and four, each up to 536870912"
no "an empty certificate" empty "$first"
no "a sheet as a certificate" chip.sheet "$counts"
no "a file without an end" /dev/zero "$first"
ends "a missing certificate" 1 "" "none: it cannot be opened: No such file" -k 0 --check none chip.sheet
ends "a folder as a certificate" 1 "" ".: it cannot be read: Is a directory" -k 0 --check . chip.sheet
heading() { printf 'marrubigai certificate 1%s\n%s' "$1" "$2" > "$work/files/bad"; }
for counts_of in "" " 1" " 1 " " 1 1 " "  1 1" " 01 1" " -1 1" " 1 1x" " 536870913 1" " 99999999999999999999 1" " 1 99999999999999999999999"; do
  heading "$counts_of" ""; no "a certificate of '$counts_of'" bad "$counts"
done
printf 'marrubigai certificate 2 0 0\n' > "$work/files/bad"; no "a certificate of another form" bad "$counts"
heading " 536870912 536870912" abcdefg; no "a short certificate" bad "it is shorter than its first line says"
heading " 1 1" abcdefghi; no "a long certificate" bad "it is longer than its first line says"
heading " 0 0" ""; cp "$work/files/bad" "$work/made"
not_certified "nothing" -k 0 chip.sheet
check "the other damager is built" tool certificates
run -q -k 2 --certificate "$work/made" "$here/examples/fifth-revision/repaired.sheet"
"$work/certificates" 400 "${SEED:-1}" examples/fifth-revision/repaired.sheet examples/fifth-revision/faulty.sheet 2 "$work/made" "$work/scratch" > "$work/hostile.out" 2>&1
check "damaged certificates, and solvers that lie: status" same 0 $?
check "damaged certificates, and solvers that lie" grep -qE '^[0-9]+ passed, 0 failed$' "$work/hostile.out"

# Out of time while the certificate is made: the search is over sooner than that, so that some time is between.
run -q -k 0 --keep "$work/lookup" "$here/examples/verilog/lookup.v"
between=no
for time in 0.1 0.15 0.2 0.3 0.4 0.6 0.9 1.3 1.9 2.8 4 6 9 13; do
  rm -f "$work/none"
  run -q -k 18 --timeout $time --certificate "$work/none" "$work/lookup/1.sheet"
  status=$?
  grep -qxF "$work/lookup/1.sheet: the property: out of time while its certificate was made; it holds in frames 0 to 18, by the solver's word" "$work/out" && between=yes && break
  [ $status -eq 20 ] && break
done
check "out of time while the certificate is made" same "yes 30" "$between $status"
check "out of time while the certificate is made: it is not written" [ ! -e "$work/none" ]

# A certificate that would take hours to check: lemma 0 is 1 two million times, which follows from the first clause; lemma 1's hints name it as often.
many() { # four bytes as printf takes them: two million of them
  printf "$1" > "$work/many"
  for _ in $(seq 21); do cat "$work/many" "$work/many" > "$work/more"; mv "$work/more" "$work/many"; done
  cat "$work/many"
}
formula_of() { { printf '%10d\n' 0; cat "$work/files/chip.sheet"; } | "$FRAMES" | sed 1d; }
place=$(formula_of | wc -w)
check "the first clause is 1, and places below 256 are enough" same "1 0 yes" "$(formula_of | head -n 1) $([ "$place" -lt 256 ] && echo yes)"
{ printf 'marrubigai certificate 1 %d %d\n' $((2097152 + 3)) $((2 + 1 + 2097152)); many '\1\0\0\0'; printf '\0\0\0\0\2\0\0\0\0\0\0\0'
  printf '\1\0\0\0\0\0\0\0\0\0\40\0'; many "\\$(printf %o "$place")\\0\\0\\0"; } > "$work/files/slow"
ends "out of time while a certificate is checked" 30 "" "out of time while the certificate was checked; nothing is known of the property" --timeout 1 -k 0 --check slow chip.sheet
(cd "$work/files" && exec "$plain" --timeout 60 -k 0 --check slow chip.sheet) > "$work/out" 2> "$work/err" &
sleep 2
kill -INT $!
wait $!
check "interrupted while a certificate is checked: status" same 30 $?
check "interrupted while a certificate is checked" same "interrupted while the certificate was checked; nothing is known of the property" "$(cat "$work/out" "$work/err")"

### for ever: what is proved is certified, and again by the file alone, whatever the depth
proved() { # what, what is said, options and file ..
  local what=$1 said=$2
  shift 2
  rm -f "$work/made"
  run -q -k 3 --prove --certificate "$work/made" "$@"
  check "$what, for ever: status" same 20 $?
  check "$what, for ever" same "$said, certified" "$(cat "$work/out")"
  run -q -k 200 --check "$work/made" "$@"
  check "$what, for ever, checked: status" same 20 $?
  check "$what, for ever, checked" same "$said, certified" "$(cat "$work/out")"
}
not_for_ever() { # what, options and file ..
  local what=$1
  shift
  run -q --check "$work/made" "$@"
  check "$what is not certified for ever: status" same 1 $?
  check "$what is not certified for ever: said" grep -qE "^$work/made: this does not certify that .* in every frame: of its [0-9]+ lemmas, the one numbered [0-9]+ from 0 is" "$work/err"
  check "$what is not certified for ever: nothing else" [ ! -s "$work/out" ]
}
told() { grep -qF ": note: $1" "$work/out" || { cat "$work/out"; return 1; } }
folder=$designs
proved "a design" "carton_counter.v: assert carton_counter.v:44 holds in every frame" carton_counter.v
not_for_ever "a design with a fault" -D FAULTY carton_counter.v
proved "a design that begins unknown" "registers.v: assert registers.v:33 holds in every frame" registers.v
not_for_ever "a design that begins unknown, with a fault" -D FAULTY registers.v
proved "a design with a clocked read" "stack.v: assert stack.v:49 holds in every frame" --reset reset -P DEPTH=3 -P WIDTH=4 stack.v
proved "a design with two ports, by abc" "queue.v: assert queue.v:42 holds in every frame" -P BITS=2 -P WIDTH=2 queue.v
not_for_ever "a design with two ports and a fault" -P BITS=2 -P WIDTH=2 -D FAULTY queue.v
proved "a design with ports in turn, by abc" "queue.v: assert queue.v:42 holds in every frame" --start unknown -P BITS=2 -P WIDTH=2 queue.v
not_for_ever "a design with ports in turn and a fault" --start unknown -P BITS=2 -P WIDTH=2 -D FAULTY queue.v
proved "a register file" "register_file.v: assert register_file.v:33 holds in every frame" -P WIDTH=4 register_file.v
proved "a design with a reset, by abc" "cache.v: assert cache.v:43 holds in every frame" --property cache.v:43 --reset reset -P INDEX=2 -P TAG=3 cache.v
proved "one of several" "histogram.v: assert histogram.v:24 holds in every frame" --property histogram.v:24 histogram.v
proved "a larger memory" "registers.v: assert registers.v:33 holds in every frame" -P BITS=5 registers.v
for design in "carton_counter 1" "queue 2 -P BITS=2 -P WIDTH=2" "queue 2 --start unknown -P BITS=2 -P WIDTH=2" "registers 1" "register_file 1" "histogram 8"; do
  set -- $design
  run -q -k 8 --prove -D FAULTY "${@:3}" "$1.v"
  check "$1 with a fault is not proved: status" same 10 $?
  check "$1 with a fault is not proved" grep -qE "^$1.v: assert $1.v:[0-9]+ is broken in frame $2 at the earliest$" "$work/out"
done
folder=$here
for revision in fourth fifth sixth seventh; do
  sheet=examples/$revision-revision/repaired.sheet
  proved "$sheet" "$sheet: the property holds in every frame" $sheet
  cp "$work/made" "$work/made.$revision"
  for fault in examples/$revision-revision/{faulty,unknown}.sheet; do [ -e "$fault" ] && not_for_ever "$fault" "$fault"; done
done
unset folder
proved "a text" "cut.aag: the property holds in every frame" --start 0 cut.aag
proved "a property that is a constant" "true.sheet: the property holds in every frame" true.sheet
chip 's/^endmodule/always @* cover (we \& !we); endmodule/' > "$work/files/chip.v"
proved "a cover" "chip.v: cover chip.v:12 is never reached" --cover chip.v:12 chip.v
# a chip that is right where its memory begins as 0, and breaks where it begins unknown
unknown=$here/examples/sixth-revision/unknown.sheet
proved "from 0" "$unknown: the property holds in every frame" --start 0 "$unknown"
not_for_ever "from an unknown start" "$unknown"
ends "an unknown start, by abc's word beyond the depth" 10 "$unknown: the property is broken in frame 1 at the earliest" "" -q -k 0 --prove "$unknown"
sheet=$here/examples/sixth-revision/repaired.sheet
run -k 3 --prove --certificate "$work/made" "$sheet"
check "what it rests on is told, for ever" grep -qE "repaired.sheet: note: $work/made, an invariant of [0-9]+ clauses, by abc's pdr, with [0-9]+ requests, [0-9]+ lemmas and [0-9]+ hints, was checked by marrubigai_certify_forever, which is proved: nothing that found it has to be believed$" "$work/out"
for way in "--prove --certificate" --check; do
  run --json $way "$work/made" "$sheet"
  check "JSON for ever, $way" same "20 holds 0 null of 0 certificate 1 $work/made" "$(echo $(value status; value chips 0 properties 0 verdict; for at in from to by; do value chips 0 properties 0 safe $at; done
    for at in certified file; do value chips 0 properties 0 forever $at; done))"
done

# without abc, with one that does not end, and with one that lies
bounded() { # what, path, what is told, options ..
  path=$2 run -k 3 --prove "${@:4}" "$sheet"
  check "$1: status" same 20 $?
  check "$1: a bounded answer" grep -qxF "$sheet: the property holds in frames 0 to ${last:-3}, by the solver's word; not proved for ever" "$work/out"
  check "$1: told" told "for ever, by abc's pdr: $3"
}
bounded "no abc" "$work/without" "berkeley-abc is missing (Debian's package of this name)"
abc 'exec sleep 60'
bounded "an abc that takes long" "$work/abc:$PATH" "no answer in " --timeout 3
abc 'exit 3'
bounded "an abc that fails" "$work/abc:$PATH" "it ended with status 3"
abc 'kill -9 $$'
bounded "an abc that is killed" "$work/abc:$PATH" "it ended with status 137"
abc 'echo hello'
bounded "an abc that says nothing" "$work/abc:$PATH" "it gave no answer: hello"
abc 'echo Output 0 of miter x was asserted in frame 13.'
last=12 bounded "an abc that claims a run" "$work/abc:$PATH" "it says that a run breaks it in frame 12"
lies() { # what, the invariant that it writes, what is told
  abc "cat > /dev/fd/3 << end
$2
end
echo Property proved."
  bounded "$1" "$work/abc:$PATH" "$3"
}
lies "an empty invariant" ".ilb
.e" "its invariant of 0 clauses is left by a step, or does not keep the property from breaking"
lies "an invariant that is not inductive" ".ilb s0
1 1
.e" "its invariant of 1 clause is left by a step, or does not keep the property from breaking"
lies "an invariant that is false at the start" ".ilb s0
0 1
1 1
.e" "its invariant of 2 clauses is not certified: it does not hold at the start of every run"
lies "an invariant past the memory" ".ilb s99999
1 1
.e" "its invariant names a register that there is not: s99999"
lies "an invariant of words" ".ilb s0
x 1
.e" "a line of its invariant has a letter"
lies "an invariant of another length" ".ilb s0
11 1
.e" "a line of its invariant has another length"
lies "an invariant that is cut short" ".ilb s0
1 1" "its invariant is cut short"
abc "echo \$\$ > $work/pid; exec sleep 60"
PATH=$work/abc:$PATH "$plain" -q -k 3 --prove "$sheet" > "$work/out" 2> "$work/err" &
for _ in $(seq 100); do [ -s "$work/pid" ] && break; sleep 0.1; done
kill -INT $!
wait $!
check "interrupted while it is proved: status" same 30 $?
check "interrupted while it is proved" same "$sheet: the property: interrupted; it holds in frames 0 to 3, by the solver's word; not proved for ever" "$(cat "$work/out" "$work/err")"
check "interrupted while it is proved: abc is gone" [ -s "$work/pid" -a ! -e "/proc/$(cat "$work/pid")" ]

# facts that are stated
facts() { printf '%s\n' "$@" > "$work/files/facts"; }
state() { folder=$designs run -k 3 --prove --invariant "$work/files/facts" registers.v; }
facts '# the upper byte of one register' '!known | started' '!known | watched != @ | file[@][15:8] == upper # of every one' '' known '!known | upper[0]' 'started | !known'
state
check "stated facts: status" same 20 $?
check "stated facts" grep -qxF "registers.v: assert registers.v:33 holds in every frame, certified" "$work/out"
check "stated facts: needed" told "$work/files/facts:3: holds at the start, kept by every step, needed"
check "stated facts: false at the start" told "$work/files/facts:5: does not hold at the start of every run"
check "stated facts: left by a step" told "$work/files/facts:6: holds at the start, not kept: a step from a state in which the others and it hold breaks it"
check "stated facts: not needed" told "$work/files/facts:7: holds at the start, kept by every step, not needed"
for design in "lookup.v:51 lookup" "cache.v:43 cache --reset reset --property cache.v:43" "queue.v:42 queue -P WIDTH=1"; do
  set -- $design
  folder=$designs run -q -k 3 --prove --invariant "$2.facts" "${@:3}" "$2.v"
  check "$2 by the facts beside it" same "$2.v: assert $1 holds in every frame, certified" "$(cat "$work/out")"
done
# where ports take turns, what the memory holds between them is a fact too
{ cat "$designs/queue.facts"; echo '!phase | first[3:0] != @ | held == words[@]'; } > "$work/files/facts"
folder=$designs run -k 3 --prove --start unknown --invariant "$work/files/facts" -P WIDTH=1 queue.v
check "queue with ports in turn, by facts" grep -qxF "queue.v: assert queue.v:42 holds in every frame, certified" "$work/out"
check "queue with ports in turn, by facts: the phase" told "$work/files/facts:12: holds at the start, kept by every step, needed"
misstated() { # a fact, what is said
  facts "$1"
  state
  check "the fact '$1': status" same 1 $?
  check "the fact '$1': said" same "$work/files/facts:1: $2" "$(head -c $((${#work} + 16 + ${#2})) "$work/err" | head -n 1)"
}
misstated 'none == 1' "there is no register none"
misstated 'known |' "a name, a number or @ is wanted at ''"
misstated 'watched == 99' "words of 3 and 7 bits are compared"
misstated 'file[8][15]' "the last word of file is 7"
misstated 'file[@][0]' "the property does not depend on all bits that are compared"
misstated 'file[@] == 3' "the property does not depend on all bits that are compared"
misstated 'file == 3' "of the memory file a word is wanted"
misstated 'number == 3' "number is no register"
misstated 'upper == watched == 3' "words of 8 and 3 bits are compared"
misstated 'known == started known' "'known' is not understood"
misstated 'upper' "a word of 8 bits stands where one bit is wanted"
misstated 'watched[3]' "watched has the bits 0 to 2"
misstated 'watched == @ | watched != @4' "@ is a number of 1 to 16 bits, the same in the whole line"
misstated 'upper != 1 | @16 < @16 | upper[7:0] != watched' "words of 8 and 3 bits are compared"
facts 'watched < 7 | watched >= 7' 'watched <= 7' 'watched > watched | upper == upper'
state
check "comparisons that are always true: status" same 20 $?
check "comparisons that are always true" told "$work/files/facts:2: holds at the start, kept by every step"
misstated 'watched < 8' "words of 3 and 4 bits are compared"
ends "facts that are missing" 1 "" "none: it cannot be opened: No such file" --prove --invariant none chip.sheet
wrong "facts without a proof" "--invariant is for --prove" --invariant x chip.sheet
wrong "a proof from frame 1" "--prove is about all frames: it goes without --from" --prove --from 1 chip.sheet
ends "the facts as the certificate" 2 "" "the certificate would be written over facts" --prove --invariant facts --certificate facts chip.sheet
check "the damager of certificates for ever is built" tool forever
"$work/forever" "${STEP:-199}" examples/fifth-revision/repaired.sheet examples/fifth-revision/faulty.sheet "$work/made.fifth" "$work/scratch" > "$work/hostile.out" 2>&1
check "damaged certificates for ever: status" same 0 $?
check "damaged certificates for ever" grep -qE '^[0-9]+ passed, 0 failed$' "$work/hostile.out"

### installed into a folder, and a use of what was installed
check "it is installed" make --no-print-directory install DESTDIR="$work/root" PREFIX=/prefix > "$work/make" 2>&1
installed=$work/root/prefix
check "the installed command" same "examples/echo/chip.sheet: the property is broken in frame 1 at the earliest" "$("$installed/bin/marrubigai" -q examples/echo/chip.sheet)"
check "the installed library" cc -std=c11 -I"$installed/include" -o "$work/search" examples/search/search.c -L"$installed/lib" -lmarrubigai -lcadical -lstdc++ -lm
check "the pkg-config file" same "prefix=/prefix Version: $(sed -n 's/^#define MARRUBIGAI_VERSION "\(.*\)"/\1/p' include/marrubigai.h)" \
  "$(echo $(grep -E '^prefix|^Version' "$installed/lib/pkgconfig/marrubigai.pc"))"
check "the man page has every option of the help" same "$("$plain" --help | grep -oE -- '--[a-z]+' | sort -u)" \
  "$(sed 's/\\-/-/g' "$installed/share/man/man1/marrubigai.1" | grep -oE -- '--[a-z]+' | sort -u)"

### the pages' commands; another version of the solver or of yosys may choose other runs and gates, and then only verdicts are compared
hidden='^$'
"$plain" --version | grep -q 'CaDiCaL sc2021$' && yosys -V | grep -q '^Yosys 0\.23 ' || hidden="$hidden\\|^frame\\|^ \\|: note: "
for page in README.md docs/COMMAND.md examples/*-revision/README.md; do
  rm -f "$work/commands" "$work/shown"
  awk -v commands="$work/commands" -v shown="$work/shown" '
    /^```/ || /^\$ / { inside = 0 }
    inside { print > shown }
    /^\$ target\/command\/marrubigai / { inside = 1; print substr($0, 3) > commands }' "$page"
  check "$page has commands" [ "$(wc -l < "$work/commands")" -ge 2 ]
  check "the commands of $page" diff <(grep -v "$hidden" "$work/shown") <(bash "$work/commands" 2>&1 | grep -v "$hidden")
done

### hostile files
check "the damager is built" tool hostile
(cd examples/verilog && yosys -Q -T -q -p 'read_verilog -formal stack.v; prep -flatten; write_json /dev/fd/3' 3> "$work/stack.json")
"$work/hostile" 1000 "${SEED:-1}" examples/echo/chip.sheet examples/fifth-revision/faulty.sheet examples/seventh-revision/faulty.sheet "$work/files/chip.aag" "$work/files/cut.aag" "$work/stack.json" \
  > "$work/hostile.out" 2>&1
check "damaged files by the thousand: status" same 0 $?
check "damaged files by the thousand" same "1 passed, 0 failed" "$(tail -n 1 "$work/hostile.out")"

finish
