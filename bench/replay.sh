#!/usr/bin/env bash
# Measures `replay` on the sheets of bench/run.sh, which has made the tools that are used here: an answer of 5 MB, with the run of one frame;
# the run of 256 frames, with an answer that has no more than it needs; and both; then the run of 256 frames with two ports, with the shorter answer
# and with all. Figures are as there. It says which of our own targets (100 ms, 50 ms) are reached, and fails only where the program fails or prints
# something else than the second implementation.
# Argument: repetitions; the program is target/bin/replay unless REPLAY names another.
set -euo pipefail
cd "$(dirname "$0")/.."
repetitions=$1
replay=$(readlink -f "${REPLAY:-target/bin/replay}")
[ -x "$replay" ] || { echo "$replay is missing" >&2; exit 1; }
work=$PWD/target/bench
rustc -O --edition 2021 -o "$work/answer" bench/answer.rs

: > "$work/replay.out"
for case in "whole 0" "feed 255" "whole 255" "feed T255" "whole T255"; do
  read -r values input <<< "$case"
  depth=${input#T}
  sheet=bench/largest.sheet
  [ "$input" = "$depth" ] || sheet=bench/largest_two_ports.sheet
  folder=$work/replay.$values.$input
  mkdir -p "$folder"
  "$work/answer" "$values" < $sheet > "$folder/answer"
  (cd "$folder" && "$replay" < "$work/input.$input") > "$folder/printed"
  "$work/answer" run "$depth" "$folder/answer" < $sheet | cmp - "$folder/printed" ||
    { echo "replay and the second implementation differ: $input" >&2; exit 1; }
  echo "$input $(wc -c < "$folder/answer") $(wc -c < "$folder/printed") $(cd "$folder" && "$work/measure" "$repetitions" "$work/input.$input" "$replay")" \
    >> "$work/replay.out"
done

awk '
  function say(met, what, time) { printf "%-8s %s: %.2f ms\n", met ? "reached" : "missed", what, time / 1000 }
  BEGIN { print "depth  answer: bytes  printed: bytes  replay: ms  resident: KiB" }
  { printf "%5s %14d %15d %11.2f %14d\n", $1, $2, $3, $4 / 1000, $5; time[NR] = $4; bytes[NR] = $2; printed[NR] = $3 }
  END {
    if (bytes[1] < 5000000 || printed[2] < 256 * 601 || printed[4] < 256 * 601) {
      print "no answer of 5 MB, or no run of 256 frames" > "/dev/stderr"
      exit 1
    }
    say(time[1] < 100000, "an answer of 5 MB in under 100 ms", time[1])
    say(time[2] < 50000, "a run of 256 frames of the largest sheet in under 50 ms", time[2])
    say(time[4] < 50000, "the same with two ports in under 50 ms", time[4])
  }' "$work/replay.out"
