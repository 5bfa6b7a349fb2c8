#!/usr/bin/env bash
# Runs every check of the repository and prints 'N passed, M failed' as its last line; exits non-zero unless M is 0.
set -u
cd "$(dirname "$0")/.." || exit 2
passed=0
failed=0

pass() { passed=$((passed + 1)); }
fail() { failed=$((failed + 1)); echo "FAILED: $1"; }
finish() { echo "$passed passed, $failed failed"; [ "$failed" -eq 0 ] && [ "$passed" -gt 0 ]; exit $?; }

# Adds up a runner's last line, 'N passed, M failed'; a runner that ends otherwise, or exits non-zero with 0 failed, is one failure.
count() { # name, exit status, log
  local line
  line=$(tail -n 1 "$3" | grep -xE '[0-9]+ passed, [0-9]+ failed')
  if [ -z "$line" ]; then
    fail "$1 did not end with 'N passed, M failed' (exit status $2)"
    return
  fi
  set -- "$1" "$2" "${line%% *}" "$(echo "$line" | sed 's/.*, //; s/ .*//')"
  passed=$((passed + $3))
  failed=$((failed + $4))
  if [ "$2" -ne 0 ] && [ "$4" -eq 0 ]; then fail "$1 exited with $2"; fi
}

if ! command -v rt >/dev/null 2>&1; then
  fail "the Rattle kit is missing: the command 'rt' is not on the PATH"
  finish
fi
. scripts/install.sh
install_missing awk mawk make make rustc rustc cadical cadical minisat minisat cc gcc g++ g++ valgrind valgrind vcd2fst gtkwave \
  /usr/include/ccadical.h libcadical-dev yosys yosys berkeley-abc berkeley-abc iverilog iverilog || { fail "a tool is missing"; finish; }

compile() { # where, name, root file, further options of rustc ..
  nice rustc -O --edition 2021 -o "$1/$2" "${@:4}" "$3"
}
# What needs nothing of the proofs is compiled beside them: they leave a processor idle at times.
early=$(mktemp -d) # outside of what rt ci reads
for test in reference runner solvers waveform rules promises; do
  compile "$early" "$test" "tests/$test/main.rs"
done > "$early/compiled.out" 2>&1 &

echo "== proofs, layout, must-fail edits, tests and programs: rt ci"
log=$(mktemp)
began=$SECONDS
processors=$(nproc)
rt ci 2>&1 | tee "$log"
status=${PIPESTATUS[0]}
echo "($((SECONDS - began)) s)"
count "rt ci" "$status" "$log"
# An edit that cannot be applied or read fails nothing there, and says nothing of a contract.
if verdict=$(grep -E '^rt: ok;' "$log") && ! grep -qE ', [1-9][0-9]* bad' <<<"$verdict"; then pass; else fail "rt ci does not say that all is well, with no bad must-fail edit"; fi
wait
logs=target/test
mkdir -p target
rm -rf "$logs"
mv "$early" "$logs"
mv "$log" "$logs/rt-ci.out"
cat "$logs/compiled.out"

# Starts a command whose last line is 'N passed, M failed'. As many run at a time as there are processors: no test may need a processor
# for itself, and each has its own scratch files.
names=()
headings=()
start() { # heading, name, command ..; seconds, in `limit`
  while [ "$(jobs -pr | wc -l)" -ge "$processors" ]; do wait -n; done
  headings+=("$1")
  names+=("$2")
  {
    began=$SECONDS
    timeout "${limit:-900}" "${@:3}" > "$logs/$2.out" 2>&1
    echo "$? $((SECONDS - began))" > "$logs/$2.status"
  } &
}

# Prints and counts what was started, in that order.
report() {
  local i status took
  wait
  for i in "${!names[@]}"; do
    status=1 took=?
    [ -f "$logs/${names[i]}.status" ] && read -r status took < "$logs/${names[i]}.status"
    echo "== ${headings[i]}"
    cat "$logs/${names[i]}.out"
    echo "($took s)"
    count "${names[i]}" "$status" "$logs/${names[i]}.out"
  done
}

frames=target/bin/frames
replay=target/bin/replay
import=target/bin/import_aag
one_port=target/bin/one_port
exporter=target/bin/export_aig
programs=("$frames" "$replay" "$import" "$one_port" "$exporter")

echo "== the programs that rt ci has built and run: scripts/build.sh from-ci"
if bash scripts/build.sh from-ci; then pass; else fail "the programs"; fi

# The library is built beside the tests that need none of it: rt ci proves a static library and builds none.
linked=(-L target/staticlib -l static=marrubigai)
{
  {
    bash scripts/build.sh library && compile "$logs" library tests/runner/library.rs "${linked[@]}" &&
      compile "$logs" certificates tests/certificates/main.rs "${linked[@]}" &&
      compile "$logs" verilog tests/verilog/main.rs "${linked[@]}" && make --no-print-directory -C command
  } > "$logs/staticlib.out" 2>&1
  echo $? > "$logs/staticlib.status"
} &
start "frames against the second implementation" frames "$logs/runner" "${programs[@]}" frames docs/FORMAT.md
start "replay against the second implementation" replay "$logs/runner" "${programs[@]}" replay
start "the formula of frames, with public solvers" solvers "$logs/solvers" "$frames" "$logs/solvers-scratch" examples
start "the second implementation's own tests" reference "$logs/reference"
while [ ! -f "$logs/staticlib.status" ] && wait -n; do :; done
echo "== the static library and the command: scripts/build.sh library, make -C command"
if [ "$(cat "$logs/staticlib.status")" = 0 ]; then
  pass
  # it checks as many edits side by side as there are processors
  limit=5400 start "each must-fail edit is refused at a fact" edits bash tests/edits.sh
  limit=1800 start "the command marrubigai, with yosys and sanitizers" command bash tests/command.sh "$frames" "$replay" "$exporter"
  start "the library against the second implementation" library "$logs/library"
  start "from Verilog to an imported netlist, an exported file and a shown run, with yosys and abc" verilog \
    bash tests/verilog.sh "$frames" "$replay" "$import" "$exporter" "$logs/verilog"
  start "the waveform of a run, by GTKWave's converters" waveform "$logs/waveform" target/command/marrubigai "$replay" "$logs/waveform-scratch"
  start "a sample of the library's calls under valgrind" library-valgrind valgrind --quiet --error-exitcode=99 "$logs/library" sample
  start "certificates to a depth and for ever, from refutations, damaged, and lies" certificates \
    "$logs/certificates" examples "$logs/certificates-scratch"
  start "the header for C against the library" header bash tests/header.sh
  start "a search depth by depth with the library and CaDiCaL's" search bash tests/search.sh "$frames" "$replay"
else
  cat "$logs/staticlib.out"
  fail "the static library"
fi
start "import_aag against the second implementation" import_aag "$logs/runner" "${programs[@]}" import_aag
start "one_port against the second implementation" one_port "$logs/runner" "${programs[@]}" one_port
start "export_aig against the second implementation" export_aig "$logs/runner" "${programs[@]}" export_aig
start "import_aag as a program" import bash tests/import.sh "$import"
start "the examples' sheets, and what the pages show of them" examples bash tests/examples.sh "$frames" "$replay"
start "wires, codes and clause numbers are kept apart" types bash tests/types.sh
start "families of crates, their table and figure, and imports" layers bash tests/layers.sh
start "citations and quotes stand in docs/RULES.md" rules "$logs/rules" .
start "docs/TRUST.md says what the repository has" promises "$logs/promises" check .
report
finish
