#!/usr/bin/env bash
# Proves every crate from nothing, builds the programs and the command, and finds a fault in two chips. The runs that are shown are stepped by the proved
# library.
set -u
cd "$(dirname "$0")/.." || exit 2
. scripts/install.sh

step() { printf '\n== %s\n' "$1"; }
stop() { echo "$1" >&2; exit 1; }
look() { # sheet, options ..; statuses 10 and 20 are answers
  target/command/marrubigai --radix dec --names "examples/$1.names" "${@:2}" "examples/$1.sheet"
  case $? in 10 | 20) ;; *) stop "no answer for $1" ;; esac
}

step "1 of 4: tools"
present rt || stop "the Rattle kit is missing: the command 'rt' is not on the PATH"
install_missing awk mawk g++ g++ /usr/include/cadical.hpp libcadical-dev || exit 1
rt version

step "2 of 4: every crate is proved from nothing (rt all verdict; some minutes, then a line for each crate)"
begin=$SECONDS
mkdir -p target
rt all verdict > target/verdict.log 2>&1
status=$?
sed -n '/^== summary$/,$p' target/verdict.log
[ "$status" = 0 ] || { cat target/verdict.log; stop "something is not proved"; }
bash scripts/build.sh || stop "library and programs were not built"
make --no-print-directory command > target/command.log 2>&1 || { cat target/command.log; stop "the command was not built"; }
echo "$((SECONDS - begin)) seconds"
bash scripts/proved.sh || stop "the README does not say what is proved"

step "3 of 4: the chip of the full run in docs/RULES.md"
echo "Every frame writes the input to address 0 and reads address 0 (one bit, start word 0). Property: a 0 is read."
cat examples/echo/chip.sheet
echo "The formula of depth 1 (frames 0 and 1) as 'frames' prints it:"
{ printf '%10d\n' 1; cat examples/echo/chip.sheet; } | target/bin/frames
echo "A solver looks for an assignment. Only inputs and idle read bits are taken from it, and the chip is stepped with its whole memory:"
look echo/chip -k 0
look echo/chip -k 1

step "4 of 4: the fifth revision of the carton counter"
echo "One scan writes the carton's size and reads the same address in one frame. The memory gives the old word there: a carton"
echo "scanned as fifty, then as a hundred, is counted with the fifty. Property: the adder uses no less than the size scanned."
look fifth-revision/faulty -k 0
look fifth-revision/faulty -k 1
echo
echo "Repaired: a scan hands its own size to the adder."
look fifth-revision/repaired -k 16
