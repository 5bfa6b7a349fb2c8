#!/usr/bin/env bash
# Writes what docs/ARCHITECTURE.md has of crates.txt: the table of families, and the figure docs/architecture.svg by way of docs/architecture.dot.
set -eu
cd "$(dirname "$0")/.."
. scripts/install.sh
install_missing awk mawk dot graphviz

awk -v form=table -f scripts/families.awk crates.txt > docs/families.tmp
awk '
  FNR == NR { table = table $0 "\n"; next }
  /^<!-- families -->$/ { print; printf "%s", table; inside = 1 }
  /^<!-- end -->$/ { inside = 0 }
  !inside' docs/families.tmp docs/ARCHITECTURE.md > docs/page.tmp
mv docs/page.tmp docs/ARCHITECTURE.md
rm docs/families.tmp
awk -v form=dot -f scripts/families.awk crates.txt > docs/architecture.dot
# the checksum tells tests/layers.sh that the picture is of this graph
{ dot -Tsvg docs/architecture.dot; echo "<!-- graph: $(cksum < docs/architecture.dot) -->"; } > docs/architecture.svg
