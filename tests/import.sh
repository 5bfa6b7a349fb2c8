#!/usr/bin/env bash
# The program `import_aag`: its arguments, the sheet or the refusal that it prints, texts at and beyond its limit, and streams that fail. What it
# makes of netlists from yosys is in tests/verilog.sh, what it makes of any text in tests/runner.
# Argument: the program.
set -u
program=$(readlink -f "$1")
cd "$(dirname "$0")/.." || exit 2
. tests/check.sh

refusal() { printf "refused%10d%10d" "$1" "$2"; }

# The program prints this on standard output, and what it says on standard error begins with this.
prints() { # what, printed, said, arguments .. (the text on standard input)
  local what=$1 printed=$2 said=$3
  shift 3
  "$program" "$@" > "$work/out" 2> "$work/err"
  check "$what: printed" same "$printed" "$(cat "$work/out")"
  check "$what: said" same "$said" "$(head -n 1 "$work/err")"
}

# An input x and a read bit; address 0, data x, always written and read; the property is that the bit read is 0.
chip='aag 2 2 0 5 0\n2\n4\n0\n2\n1\n1\n5\n'
sheet() { line N 1 0 0; line M 1 1 "${1-}"; line A 0; line D 2; line C 1 1 5; }
prints "a start word" "$(sheet 1)" "" 1 1 1 < <(printf "$chip")
prints "the start word 0" "$(sheet 0)" "" 1 1 0 < <(printf "$chip")
prints "no start word" "$(sheet)" "" 1 1 < <(printf "$chip")
prints "a comment behind it" "$(sheet 0)" "" 1 1 0 < <(printf "${chip}c\nsome text, no line feed")
# a latch, read bits behind it, and gates: the latch, literal 6, is wire 2, the read bit, literal 4, wire 3
prints "wires in their order" "$(line N 1 1 2; line M 1 1 0; line L 5 0; line G 2 6; line G 8 5; line A 2; line D 10; line C 11 1 7)" "" 1 1 0 \
  < <(printf 'aag 5 2 1 5 2\n2\n4\n6 7\n2\n10\n11\n1\n5\n8 2 4\n10 8 7\n')

# the same chip with a second port that reads at the input's bit: its read bit is the last input, its address and read enable stand behind the data
two='aag 3 3 0 7 0\n2\n4\n6\n0\n2\n2\n0\n1\n1\n5\n'
prints "two ports" "$(line N 1 0 0; line T 1 1 1; line A 0; line D 2; line B 2; line R 0; line C 1 1 5)" "" 1 1 1 2 < <(printf "$two")
prints "one port, said" "$(sheet 1)" "" 1 1 1 1 < <(printf "$chip")

prints "no text" "$(refusal 11 1)" "" 1 1 0 < /dev/null
prints "a line cut short" "$(refusal 11 8)" "" 1 1 0 < <(printf "${chip%??}")
prints "fewer outputs than are due" "$(refusal 12 0)" "" 2 1 0 < <(printf 'aag 2 2 0 5 0\n2\n4\n0\n2\n1\n1\n5\n')
prints "an undefined literal" "$(refusal 13 8)" "" 1 1 0 < <(printf 'aag 3 2 0 5 0\n2\n4\n0\n2\n1\n1\n6\n')
prints "a start word of two bits" "$(refusal 4 2)" "" 1 1 2 < <(printf "$chip")
prints "one wire on two address bits" "$(refusal 17 4)" "" 2 1 0 < <(printf 'aag 2 2 0 6 0\n2\n4\n2\n3\n0\n1\n1\n5\n')
prints "the address is the read bit" "$(refusal 6 3)" "" 1 1 0 < <(printf 'aag 2 2 0 5 0\n2\n4\n4\n2\n1\n1\n5\n')

prints "a text of one port for two" "$(refusal 12 0)" "" 1 1 0 2 < <(printf "$chip")
prints "a text of two ports for one" "$(refusal 12 0)" "" 1 1 0 < <(printf "$two")
prints "too large a start word with two ports" "$(refusal 4 2)" "" 1 1 2 2 < <(printf "$two")
prints "the second address is a read bit" "$(refusal 6 5)" "" 1 1 0 2 < <(printf 'aag 3 3 0 7 0\n2\n4\n6\n0\n2\n4\n0\n1\n1\n5\n')

usage="usage: import_aag m n [start [ports]] < text.aag > sheet"
prints "no arguments" "" "$usage" < <(printf "$chip")
prints "one argument" "" "$usage" 1 < <(printf "$chip")
prints "no port" "" "$usage" 1 1 0 0 < <(printf "$chip")
prints "three ports" "" "$usage" 1 1 0 3 < <(printf "$chip")
prints "five arguments" "" "$usage" 1 1 0 1 1 < <(printf "$chip")
for wrong in "" " 1" 1x 01 -1 +1 1.0 4294967296 11111111111; do
  prints "'$wrong' for m" "" "$usage" "$wrong" 1 0 < <(printf "$chip")
  prints "'$wrong' for n" "" "$usage" 1 "$wrong" 0 < <(printf "$chip")
  prints "'$wrong' for the start word" "" "$usage" 1 1 "$wrong" < <(printf "$chip")
  prints "'$wrong' for the ports" "" "$usage" 1 1 0 "$wrong" < <(printf "$chip")
done
prints "the largest numbers" "$(refusal 12 0)" "" 4294967295 4294967295 4294967295 < <(printf "$chip")

# A text is judged by its first 4 MiB, whatever stands behind them. Only where a line that is due is not whole within them is there a message.
most=4194304
cut="import_aag: not all lines of the text are within its first $most bytes"
bytes() { printf "$1" | wc -c; }
padded() { printf "$chip"; head -c "$(($1 - $(bytes "$chip")))" /dev/zero; }
prints "4 MiB" "$(sheet 0)" "" 1 1 0 < <(padded $most)
prints "a byte more" "$(sheet 0)" "" 1 1 0 < <(padded $((most + 1)))
prints "far more" "$(sheet 0)" "" 1 1 0 < <(padded 20000000)
prints "no line feed in far more" "" "$cut" 1 1 0 < <(head -c 20000000 /dev/zero)
prints "none in 4 MiB" "$(refusal 11 1)" "" 1 1 0 < <(head -c $most /dev/zero)
prints "a fault on the first line of far more" "$(refusal 11 1)" "" 1 1 0 < <(printf 'aag x\n'; head -c 20000000 /dev/zero)
prints "an undefined literal, and far more" "$(refusal 13 8)" "" 1 1 0 < <(printf 'aag 3 2 0 5 0\n2\n4\n0\n2\n1\n1\n6\n'; head -c 5000000 /dev/zero)
# Inputs of eleven bytes a line fill the text up to a line that ends with byte 4 MiB, or behind it: 381,297 lines of them and two shorter.
inputs() { awk -v n="$1" 'BEGIN { for (x = 0; x < n; x++) printf "%d\n", 2000000000 + 2 * x }'; }
header='aag 2000000000 381299 0 0 0\n'
rest=$((most - $(bytes "$header") - 381297 * 11))
filled() { # how many bytes the last two lines have, and what stands behind them
  printf "$header"
  inputs 381297
  printf '2\n%*s\n' "$(($1 - 3))" "" | tr ' ' 4
  printf "${2-}"
}
prints "a last line that ends with byte 4 MiB" "$(refusal 12 0)" "" 1 1 0 < <(filled $rest)
prints "and a byte behind it" "$(refusal 12 0)" "" 1 1 0 < <(filled $rest x)
prints "its line feed is the first byte behind" "" "$cut" 1 1 0 < <(filled $((rest + 1)))
prints "a text of 4 MiB that ends before it" "$(refusal 11 381300)" "" 1 1 0 < <(filled $((rest + 1)) | head -c $most)
prints "a fault before the line that is cut" "$(refusal 11 381299)" "" 1 1 0 < <(filled $((rest + 1)) | sed '381299s/2/3/')

prints "no standard input" "$(refusal 11 1)" "" 1 1 0 <&-
prints "a folder" "$(refusal 11 1)" "" 1 1 0 < "$work"
check "a full device" same "import_aag: writing failed, the output is not whole" "$(printf "$chip" | "$program" 1 1 0 2>&1 > /dev/full)"

finish
