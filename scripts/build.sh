#!/usr/bin/env bash
# Proves and builds the library and the programs, and copies them to where the other scripts take them from: target/staticlib/libmarrubigai.a and
# target/bin/NAME. What was built of the same sources is not built again. What the check of each crate that no other imports says goes to target/log/NAME.say.
# Argument: `library` or `programs`, for these alone; `from-ci`, directly behind `rt ci`: the programs that it has built and run are copied.
set -u
cd "$(dirname "$0")/.." || exit 2
what=${1-all}
names="frames replay import_aag one_port export_aig"
mkdir -p target/bin target/staticlib target/log

command -v rt >/dev/null 2>&1 || { echo "the Rattle kit is missing: the command 'rt' is not on the PATH" >&2; exit 1; }
# of all that is read
sources() {
  { rt version; cat crates.txt; find crates \( -path '*/out' -o -path '*/must-fail' \) -prune -o -type f -print | LC_ALL=C sort | xargs -d '\n' sha256sum; } | sha256sum
}
sum=$(sources)
is_new() { [ "$sum" != "$(cat "target/built-$1" 2>/dev/null)" ]; } # programs or library
is_done() { [ "$sum" = "$(sources)" ] && echo "$sum" > "target/built-$1"; }

programs() { # whether rt ci has just built them
  local name
  is_new programs || ! ls $(printf 'target/bin/%s ' $names) >/dev/null 2>&1 || return 0
  for name in $names; do
    if ! "$1"; then
      # it is run once, on its own input
      (cd "crates/$name" && if [ -f stdin ]; then rt run < stdin; else rt run < /dev/null; fi) > "target/log/$name.run" 2>&1
      grep -q '^rt: running ' "target/log/$name.run" || { cat "target/log/$name.run" >&2; echo "$name was not built" >&2; return 1; }
    fi
    install "crates/$name/out/$name" target/bin || return 1
  done
  is_done programs
}

# Each library once, as many checks side by side as there are processors and room; then the static library over them.
library() {
  local jobs
  is_new library || [ ! -f target/staticlib/libmarrubigai.a ] || return 0
  jobs=$(awk -v most="$(nproc)" '/^MemAvailable:/ { fit = int($2 / 2500000) } END { print fit < 1 ? 1 : fit < most ? fit : most }' /proc/meminfo)
  rt all check --jobs "$jobs" > target/log/all.out 2>&1 || { grep -E 'error|not proved' target/log/all.out | head -n 40; tail -n 100 target/log/all.out; return 1; }
  rm -f target/log/*.say
  awk '/^== / { if (out) close(out); out = $2 == "summary" ? "" : "target/log/" $2 ".say"; next } out { print > out }' target/log/all.out
  (cd crates/marrubigai && rt lib) > target/log/lib.out 2>&1 || { cat target/log/lib.out; return 1; }
  install -m 644 crates/marrubigai/out/libmarrubigai.a target/staticlib && is_done library
}

case $what in
  from-ci) programs true ;;
  programs) programs false ;;
  library) library ;;
  all) library && programs false ;;
  *) echo "arguments: library, programs or from-ci, or none" >&2; exit 2 ;;
esac
