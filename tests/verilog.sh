#!/usr/bin/env bash
# From Verilog to a netlist: the text that the real yosys writes, what the library imports of it, and abc's proof that this is the circuit of the
# binary AIGER of the same yosys run (latches cut; inputs, outputs and latches matched by their order). The same comparison must fail where two read
# bits are exchanged. The sheet that `import_aag` prints is the second implementation's, byte for byte; the file that `export_aig` makes of it is read
# by abc and yosys, and is that circuit too, but not with a bit changed. What the command says of such texts; and the page's commands.
# Arguments: the programs `frames`, `replay`, `import_aag` and `export_aig`, and the program of tests/verilog. After `make command`.
set -u
export FRAMES REPLAY
FRAMES=$(readlink -f "$1")
REPLAY=$(readlink -f "$2")
import_aag=$(readlink -f "$3")
export_aig=$(readlink -f "$4")
importer=$(readlink -f "$5")
cd "$(dirname "$0")/.." || exit 2
. tests/check.sh
. tests/aag.sh
command=$PWD/target/command/marrubigai

# What abc says of two files, of which one may be BLIF and one AIGER: equal, different, or something else that it said.
compared() { # file, file
  local said
  said=$(cd "$work" && berkeley-abc -q "cec -n $1 $2" 2>&1)
  case $said in
    *"Networks are equivalent"*) echo equal ;;
    *"Networks are NOT EQUIVALENT"*) echo different ;;
    *) echo "$said" ;;
  esac
}

# The same by the newer command of abc, of two AIGER files.
compared_anew() { # file, file
  local said
  said=$(cd "$work" && berkeley-abc -q "&r $1; &cec $2" 2>&1)
  case $said in
    *"Networks are equivalent"*) echo equal ;;
    *"Networks are NOT EQUIVALENT"*) echo different ;;
    *) echo "$said" ;;
  esac
}

# What yosys reads of a binary file: how many cells of each kind.
cells() { # file
  yosys -Q -T -p "read_aiger -module_name chip $work/$1; stat" 2>&1 | grep -E '^ +(\$|Number of cells)|ERROR'
}

# The file with a bit of one of its bytes changed.
changed_bit() { # file, which byte from its end, the bit's weight
  local byte
  head -c -"$2" "$1"
  byte=$(tail -c "$2" "$1" | head -c 1 | od -An -tu1)
  printf "\\$(printf %03o $((byte ^ $3)))"
  tail -c "$(($2 - 1))" "$1"
}

# The text, made a sheet by `import_aag` and of this a binary file by `export_aig` (NAME.sheet, NAME-out.aig), is the circuit of the binary file of
# yosys: byte for byte, but for the symbols that yosys writes behind it, and by what abc finds. With P inverted, which is one bit, it is not.
exported() { # name, m, n
  "$import_aag" "$2" "$3" 0 < "$work/$1.aag" > "$work/$1.sheet"
  "$export_aig" < "$work/$1.sheet" > "$work/$1-out.aig"
  check "$1: exported as yosys' own file begins" cmp "$work/$1-out.aig" <(head -c "$(wc -c < "$work/$1-out.aig")" "$work/$1.aig")
  check "$1: the exported file, by cec" same equal "$(compared "$1-out.aig" "$1.aig")"
  check "$1: the exported file, by &cec" same equal "$(compared_anew "$1-out.aig" "$1.aig")"
  check "$1: yosys reads it as its own" same "$(cells "$1.aig")" "$(cells "$1-out.aig")"
  local lines
  lines=$(awk 'NR == 1 { print 1 + $4 + $5 }' "$work/$1.aag")
  changed_bit "$work/$1-out.aig" "$(($(tail -n +"$((lines + 1))" "$work/$1-out.aig" | wc -c) + 2))" 1 > "$work/$1-bit.aig"
  check "$1: one bit is changed" same 1 "$(cmp -l "$work/$1-out.aig" "$work/$1-bit.aig" | wc -l)"
  check "$1: with P inverted, by cec" same different "$(compared "$1-bit.aig" "$1.aig")"
  check "$1: with P inverted, by &cec" same different "$(compared_anew "$1-bit.aig" "$1.aig")"
}

# yosys makes a text and a binary file (NAME.aag, NAME.aig); the import of the text is the circuit of the binary file.
translated() { # name, m, n, top module, arguments of read_verilog ..
  local name=$1 m=$2 n=$3
  shift 3
  check "$name: yosys makes it" to_aag "$name" "$@"
  check "$name: imported" same "0 0" "$("$importer" verdict "$work/$name.aag" "$m" "$n" 0)"
  "$importer" blif "$work/$name.aag" "$m" "$n" 0 > "$work/$name.blif"
  check "$name: the circuit of the binary file" same equal "$(compared "$name.blif" "$name.aig")"
  exported "$name" "$m" "$n"
}

# The text with two of its lines exchanged.
exchanged() { # text, line, line
  awk -v one="$2" -v other="$3" '
    { line[NR] = $0 }
    END { for (at = 1; at <= NR; at++) print line[at == one ? other : at == other ? one : at] }' "$1"
}

counter=examples/fifth-revision/carton_counter.v
translated repaired 3 8 carton_counter "$counter"
translated faulty 3 8 carton_counter -DFAULTY "$counter"

# Two read bits exchanged: input 7 is read_data[0], in line 9.
for other in 10 16; do
  exchanged "$work/repaired.aag" 9 "$other" > "$work/exchanged.aag"
  check "exchanged: imported" same "0 0" "$("$importer" verdict "$work/exchanged.aag" 3 8 0)"
  "$importer" blif "$work/exchanged.aag" 3 8 0 > "$work/exchanged.blif"
  check "read bits of lines 9 and $other exchanged" same different "$(compared exchanged.blif repaired.aig)"
done
check "the repair is another circuit" same different "$(compared faulty.blif repaired.aig)"
check "so is its exported file" same different "$(compared faulty-out.aig repaired.aig)"
# One bit of the last two gates changed, the lowest of a difference.
for byte in 1 2 3 4; do
  changed_bit "$work/repaired-out.aig" $byte 1 > "$work/bit.aig"
  check "the bit of byte $byte from the end changed" same different "$(compared bit.aig repaired.aig)"
done

# The chips of the sheets are these: the Verilog has the clock in front. And the formula of the imported netlist has the same answers.
for chip in faulty repaired; do
  "$importer" sheet-blif "examples/fifth-revision/$chip.sheet" 1 > "$work/sheet.blif"
  check "$chip: the Verilog and the sheet" same equal "$(compared sheet.blif "$chip.aig")"
  "$importer" sheet "$work/$chip.aag" 3 8 0 > "$work/imported.sheet"
  "$import_aag" 3 8 0 < "$work/$chip.aag" > "$work/$chip.sheet"
  check "$chip: import_aag prints its sheet" cmp "$work/imported.sheet" "$work/$chip.sheet"
done
check "an unknown start is an empty field" cmp <("$import_aag" 3 8 < "$work/repaired.aag") <(sed '2s/.\{10\}$/          /' "$work/repaired.sheet")
answer() { run_of "$work/$1.sheet" "$2" > "$work/found" 2>&1; echo $?; }
check "faulty: no run in one frame" same 20 "$(answer faulty 0)"
check "faulty: a run in two frames" same 10 "$(answer faulty 1)"
check "repaired: no run" same 20 "$(answer repaired 6)"

# A small chip, in which one thing is changed at a time. A bit of its write data is wired straight to an input.
chip() { # what sed changes
  sed "$1" <<'verilog'
module chip (
    input clock,
    input [1:0] x,
    input y,
    input [1:0] read_data,
    output address,
    output [1:0] write_data,
    output write_enable,
    output read_enable,
    output property_holds
);
  reg [1:0] sum = 0;
  reg high = 0;
  always @(posedge clock) begin
    sum <= sum + x;
    high <= sum[1] ^ read_data[0];
  end
  assign address = x[0] ^ x[1];
  assign write_data = {x[0] & sum[1], y};
  assign write_enable = 1;
  assign read_enable = sum[0];
  assign property_holds = !high | (read_data != 2'b11);
endmodule
verilog
}
chip '' > "$work/chip.v"
translated wires 1 2 chip "$work/chip.v"
check "wires: the names of the inputs" same "clock x[0] x[1] y read_data[0] read_data[1]" \
  "$(sed -n 's/^i[0-9]* //p' "$work/wires.aag" | tr '\n' ' ' | sed 's/ $//')"
chip 's/posedge clock)/posedge clock or posedge y) if (y) sum <= 0; else/' > "$work/reset.v"
translated reset 1 2 chip "$work/reset.v"

# m and n exchanged fit the same number of outputs: the import takes the text for another chip, and the names tell.
check "m and n exchanged: imported" same "0 0" "$("$importer" verdict "$work/wires.aag" 2 1 0)"
said() { "$command" -q -k 0 "$@" 2>&1 | head -n 1; }
check "m and n exchanged: noticed" same "$work/wires.aag: input 5 is read_data[1], and read_data is due" "$(said --widths 2,1 "$work/wires.aag")"
# A refusal is printed where the sheet should be, and found there.
"$import_aag" 1 3 0 < "$work/wires.aag" > "$work/refused.sheet"
check "a refused import: told" same "$work/refused.sheet: this is no sheet but the refusal of an import or a conversion: refused 12 (interface)" "$(said "$work/refused.sheet")"

# What yosys writes by itself: an input that is wired to an output stands behind the read bits, and the import takes that; a register that
# does not start as 0 has a third number, and that is 11.
plain() { yosys -Q -T -q -p "prep -flatten -top chip; dffunmap; simplemap; aigmap; write_aiger -ascii -symbols $work/$1.aag" "$2"; } # name, Verilog
plain plain "$work/chip.v"
check "plain: noticed" same "$work/plain.aag: input 4 is read_data[1], and read_data[0] is due" "$(said "$work/plain.aag")"
check "plain: imported as it is" same "0 0" "$("$importer" verdict "$work/plain.aag" 1 2 0)"
"$importer" blif "$work/plain.aag" 1 2 0 > "$work/plain.blif"
check "plain: another circuit" same different "$(compared plain.blif wires.aig)"
third() { # name, initial value
  chip "s/high = 0/high$2/; s/, y}/, !y}/" > "$work/$1.v"
  plain "$1" "$work/$1.v"
  check "$1: noticed" same "$work/$1.aag: refused 11 (not aiger) at line 10" "$(said "$work/$1.aag")"
  check "$1: 11 at the last latch" same "11 10" "$("$importer" verdict "$work/$1.aag" 1 2 0)"
}
third unset ""
third one " = 1"

# yosys finds that bits 0, 3 and 7 of `last` are 0 and that two pairs of the others are the same register, which then has all their names, that of the
# port too. A text does not tell how wide a register is: the command shows the bits that are there, with their range.
cat > "$work/merged.v" <<'verilog'
module chip (
    input clock, input go, input large, input [7:0] data,
    input [7:0] read_data,
    output [2:0] address, output [7:0] write_data,
    output write_enable, output read_enable, output property_holds
);
  (* keep *) reg [7:0] last = 0;
  reg [2:0] at = 0;
  always @(posedge clock) begin last <= large ? 8'd100 : 8'd50; at <= at + 1; end
  assign address = at;
  assign write_data = last;
  assign write_enable = 1;
  assign read_enable = 1;
  assign property_holds = !(last == 8'd100 & data[7]);
endmodule
verilog
translated merged 3 8 chip "$work/merged.v"
"$command" --start 0 --radix dec --vcd "$work/merged.vcd" "$work/merged.aag" > "$work/found"
check "merged registers: a run" same "$work/merged.aag: the property is broken in frame 1 at the earliest:" "$(head -n 1 "$work/found")"
check "merged registers: the words" same "frame large data address[2:0] last[2:1] last[6:4] write_data[6:4] memory" "$(echo $(sed -n 2p "$work/found"))"
check "merged registers: 100 is 2 in bits 2 to 1 and 6 in bits 6 to 4" same "1 2 6 6 100" \
  "$(awk '/property broken$/ { print $4, $5, $6, $7, $(NF - 5) }' "$work/found")"
check "merged registers: the waveform has the ranges" same "[2:0] [2:1] [6:4] [6:4]" \
  "$(sed -n '/module words/,/upscope/s/^\$var wire [0-9]* [^ ]* \(address\|last\|write_data\) \(.*\) \$end$/\2/p' "$work/merged.vcd" | tr '\n' ' ' | sed 's/ $//')"

# The page's commands. Another version of the solver may choose another run, and another yosys may make other gates, or name registers in another
# order; then what depends on it is not compared.
mkdir -p target
awk -v commands="$work/commands" -v shown="$work/shown" '
  /^```/ { plain = !inside && $0 == "```"; inside = !inside; next }
  plain && /^\$ / { print substr($0, 3) > commands; next }
  plain { print > shown }' docs/VERILOG.md
check "the page has commands" [ "$(wc -l < "$work/commands")" -ge 5 ]
hidden='^$'
"$command" --version | grep -q 'CaDiCaL sc2021$' || hidden="$hidden\\|^frame\\|^ "
yosys -V | grep -q '^Yosys 0\.23 ' || hidden="$hidden\\|^frame\\|^ \\|^aag "
check "the page's commands" diff <(grep -v "$hidden" "$work/shown") <(bash "$work/commands" 2>&1 | grep -v "$hidden")

finish
