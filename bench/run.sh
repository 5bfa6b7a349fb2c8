#!/usr/bin/env bash
# Measures `frames` on bench/largest.sheet, of the largest kind (I = 60, L = 100, A = 408, m = 12, n = 32; its codes were drawn once), at
# depths 15, 63 and 255, and at depth 63 on the same sheet with half of its codes made constants and with its start unknown; on
# bench/largest_two_ports.sheet, the largest with two ports (A = 376, else as the other), at depths 63 and 255; all beside a C generator of the
# same text that is optimised by hand and one that prints through fprintf; of the library, every group of depth 255 through the exported call, which
# tests its record each time, the heading of depth 255, the export of 599 gates as binary AIGER, and the import of ASCII AIGER texts (bench/text.rs);
# and `replay` (bench/replay.sh). Every
# figure is the best of several repetitions, all programs and inputs in turn, input from a file, output to /dev/null; the time is the process's
# processor time (user and system), so that other work on the machine matters little; instructions are counted once, by valgrind where it is
# installed. It says which of our own targets (1.25 times, of two ports 1.05 times, 4 times, 4 MiB, 20%, 20 µs, 50 µs, 50 ms) are reached, and fails only
# where a program fails or the texts differ.
# Arguments: repetitions (100; a tenth as many of the slow generator and of the imports), and `worst` for the worst import known as well, which
# takes a minute; the program is target/bin/frames unless FRAMES names another.
set -euo pipefail
cd "$(dirname "$0")/.."
repetitions=${1:-100}
worst=${2:-}
[ -z "$worst" ] || [ "$worst" = worst ] || { echo "arguments: repetitions, worst" >&2; exit 2; }
frames=${FRAMES:-target/bin/frames}
for command in cc rustc awk cmp "$frames"; do
  command -v "$command" >/dev/null 2>&1 || { echo "$command is missing" >&2; exit 1; }
done

work=target/bench
mkdir -p "$work"
compile() { cc -std=gnu11 -Wall -Wextra -O3 "$@"; }
compile -DOUTPUT='"output_buffer.h"' -o "$work/optimised" bench/generate.c
compile -DOUTPUT='"output_printf.h"' -o "$work/formatted" bench/generate.c
compile -o "$work/measure" bench/measure.c
[ -f target/staticlib/libmarrubigai.a ] || bash scripts/build.sh library > "$work/staticlib.out" || { cat "$work/staticlib.out" >&2; exit 1; }
compile -o "$work/library" bench/library.c -L target/staticlib -lmarrubigai
compile -o "$work/import" bench/import.c -L target/staticlib -lmarrubigai
rustc -O --edition 2021 -o "$work/text" bench/text.rs

# The inputs: a depth, T and a depth for the sheet with two ports, or what is changed in the other sheet at depth 63. Where half of the codes are
# constants, clauses are left out, and literals; an unknown start asks that reads agree. Depth 0 is the start of the process, the reading of the
# sheet and next to no text. The longest run comes first: the one behind it in the next repetition, which finds the caches full of something else,
# is then not the shortest.
inputs=(T255 255 T63 63 15 0 constants unknown)
sheet() {
  case $1 in
    T*) cat bench/largest_two_ports.sheet ;;
    constants) awk -f bench/constants.awk bench/largest.sheet ;;
    unknown) sed '2s/.\{10\}$/          /' bench/largest.sheet ;;
    *) cat bench/largest.sheet ;;
  esac
}
bytes=()
fast=()
slow=()
for name in "${inputs[@]}"; do
  input=$work/input.$name
  case $name in T* | [0-9]*) depth=${name#T} ;; *) depth=63 ;; esac
  { printf '%10d\n' "$depth"; sheet "$name"; } > "$input"
  for other in optimised formatted; do
    "$work/$other" < "$input" | cmp - <("$frames" < "$input") || { echo "frames and $other differ: $name" >&2; exit 1; }
  done
  bytes+=("$("$frames" < "$input" | wc -c)")
  fast+=("$input" "$frames" "$input" "$work/optimised")
  slow+=("$input" "$work/formatted")
done
libraries=()
headings=
for input in "$work/input.255" "$work/input.T255"; do
  [ "$("$work/library" < "$input")" -eq "$("$frames" < "$input" | tail -n +2 | wc -w)" ] ||
    { echo "the library writes other numbers than frames prints: $input" >&2; exit 1; }
  libraries+=("$input" "$work/library")
  headings="$headings $("$work/library" headings < "$input" | tr '\n' ' ')"
done

exporting=$("$work/library" export < "$work/input.255")

echo "the three programs print the same; measuring $repetitions times" >&2
"$work/measure" "$repetitions" "${libraries[@]}" "${fast[@]}" > "$work/fast.out"
"$work/measure" $(((repetitions + 9) / 10)) "${slow[@]}" > "$work/slow.out"
counted() {
  ! command -v valgrind > /dev/null 2>&1 ||
    valgrind --tool=callgrind --callgrind-out-file=/dev/null "$1" < "$work/input.63" 2>&1 > /dev/null | awk '/Collected/ { print $NF }'
}
instructions="$(counted "$frames") $(counted "$work/optimised")"

awk -v inputs="${inputs[*]}" -v bytes="${bytes[*]}" -v headings="$headings" -v exporting="$exporting" -v instructions="$instructions" '
  function say(met, what, figure) { printf "%-8s %s: %s\n", met ? "reached" : "missed", what, figure }
  # how much less or more a byte costs at depth 255 than at 63, in percent, with so much of the time taken off at each
  function change(time, off, less) {
    return 100 * ((time[255] - off) / (size[255] - less) / ((time[63] - off) / (size[63] - less)) - 1)
  }
  function row(k) {
    printf "%-9s %9d %11.2f %10.2f %10.2f %19.2f %17.1f %8.3f %15d\n", k, size[k], time[k] / 1000, optimised[k] / 1000,
      formatted[k] / 1000, time[k] / optimised[k], formatted[k] / time[k], 1000 * time[k] / size[k], resident[k]
  }
  function times(k) { return sprintf("%.2f", time[k] / optimised[k]) }
  function groups(k, what) {
    say(library[k] <= time[k], what ", all groups through the library, at most the time of frames",
      sprintf("%.2f (%.2f ms)", library[k] / time[k], library[k] / 1000))
  }
  BEGIN {
    most = split(inputs, name, " "); split(bytes, counts, " "); split(headings, heading, " "); split(instructions, executed, " ")
    for (d = 1; d <= most; d++) size[name[d]] = counts[d]
  }
  FNR < NR { formatted[name[FNR]] = $1; next }
  FNR <= 2 { library[FNR == 1 ? 255 : "T255"] = $1; next }
  FNR % 2 { time[name[(FNR - 1) / 2]] = $1; resident[name[(FNR - 1) / 2]] = $2; next }
  { optimised[name[(FNR - 2) / 2]] = $1 }
  END {
    print "depth         bytes  frames, optimised, formatted: ms  frames/optimised  formatted/frames  ns/byte  resident: KiB"
    most = split("0 15 63 255 constants unknown T63 T255", shown, " ")
    for (d = 1; d <= most; d++) row(shown[d])
    for (d = 2; d <= 4; d++) {
      k = shown[d]
      say(time[k] <= 1.25 * optimised[k], "depth " k ", at most 1.25 times the optimised generator", times(k))
      say(formatted[k] >= 4 * time[k], "depth " k ", at least 4 times faster than formatted printing", sprintf("%.1f", formatted[k] / time[k]))
      say(resident[k] <= 4096, "depth " k ", at most 4 MiB resident", resident[k] " KiB")
    }
    k = "constants"
    say(size[k] < size[63] && time[k] < time[63], "depth 63, half of the codes constants, shorter and faster",
      sprintf("%.2f of the bytes, %.2f of the time, %s times the optimised generator", size[k] / size[63], time[k] / time[63], times(k)))
    k = "unknown"
    say(time[k] <= 1.25 * optimised[k], "depth 63, the start unknown, at most 1.25 times the optimised generator", times(k))
    for (d = 7; d <= most; d++) {
      k = shown[d]
      say(time[k] <= 1.05 * optimised[k], "two ports, depth " substr(k, 2) ", at most 1.05 times the optimised generator", times(k))
    }
    say(resident["T255"] <= 4096, "two ports, depth 255, at most 4 MiB resident", resident["T255"] " KiB")
    # what depth 0 takes is the start of the process: no cost of a byte
    flat = change(time, time[0], size[0])
    say(flat >= -20 && flat <= 20, "cost per byte from depth 63 to 255 within 20%, the time of depth 0 taken off", sprintf("%+.0f%%", flat))
    printf "         the same of the optimised generator: %+.0f%%\n", change(optimised, optimised[0], size[0])
    printf "         with the time of depth 0: frames %+.0f%%, the optimised generator %+.0f%%\n", change(time, 0, 0), change(optimised, 0, 0)
    if (executed[2]) printf "         instructions for each byte at depth 63: frames %.2f, the optimised generator %.2f\n", executed[1] / size[63], executed[2] / size[63]
    groups(255, "depth 255")
    groups("T255", "two ports, depth 255")
    say(heading[1] <= 20 && heading[2] <= 20 && heading[3] <= 20, "a heading of depth 255 in at most 20 µs",
      sprintf("%.1f µs, of an unknown start %.1f µs, of two ports %.1f µs", heading[1], heading[2], heading[3]))
    say(exporting <= 50, "599 gates exported as binary AIGER in at most 50 µs", sprintf("%.1f µs", exporting))
  }' "$work/fast.out" "$work/slow.out"

# Imports: each text with the number and place that it is refused with, 0 0 where it is accepted.
imports=("tools 4 1" "undefined 13 56811" "inputs 4 1" "repeat 11 90001" "largest 0 0" "scattered 0 0")
[ -z "$worst" ] || imports+=("worst 4 1")
jobs=()
for import in "${imports[@]}"; do
  read -r name verdict <<< "$import"
  "$work/text" "$name" > "$work/text.$name"
  # the worst is measured by its only run
  [ "$name" = worst ] || [ "$("$work/import" < "$work/text.$name")" = "$verdict" ] || { echo "the import of $name is not $verdict" >&2; exit 1; }
  [ "$name" = worst ] || jobs+=("$work/text.$name" "$work/import")
done
"$work/measure" $(((repetitions + 9) / 10)) "${jobs[@]}" > "$work/imports.out"
[ -z "$worst" ] || "$work/measure" 1 "$work/text.worst" "$work/import" >> "$work/imports.out"
printf '%s\n' "${imports[@]}" | while read -r name verdict; do echo "$name $(wc -c < "$work/text.$name") $verdict"; done |
  paste -d ' ' - "$work/imports.out" | awk '
  BEGIN { print "import of a text    bytes  number, place: ms" }
  { printf "%-14s %10d %7d %6d %8.2f\n", $1, $2, $3, $4, $5 / 1000; time[$1] = $5 }
  END {
    slowest = "tools"
    for (name in time) if (name ~ /^(undefined|inputs|repeat)$/ && time[name] > time[slowest]) slowest = name
    printf "%-8s a text as tools write it, to 1 MB, judged in under 50 ms: %.2f ms (%s)\n", time[slowest] < 50000 ? "reached" : "missed", time[slowest] / 1000, slowest
  }'
bash bench/replay.sh "$repetitions"
