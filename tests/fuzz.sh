#!/usr/bin/env bash
# N hostile inputs through each program, as many hostile certificates, and ten times as many calls of the library, which need no process each; every
# outcome is compared with the second implementation. The seed is printed, so that a failure can be had again: make fuzz N=100000 SEED=7
set -eu
cd "$(dirname "$0")/.."
count=${1:?how many inputs}
seed=${2:-$(date +%s)}
echo "seed $seed"
bash scripts/build.sh > /dev/null
mkdir -p target/test
rustc -O --edition 2021 -o target/test/runner tests/runner/main.rs
rustc -O --edition 2021 -o target/test/library -L target/staticlib -l static=marrubigai tests/runner/library.rs
target/test/runner target/bin/frames target/bin/replay target/bin/import_aag target/bin/one_port target/bin/export_aig fuzz "$count" "$seed"
target/test/library fuzz $((10 * count)) "$seed"
