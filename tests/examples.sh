#!/usr/bin/env bash
# The examples: each committed sheet, and the names of its wires, is what the builder writes; a solver finds a run or none as it should, which `replay`
# steps; the README's formula is the program's. tests/command.sh has the transcripts of their pages.
# Arguments: the programs `frames` and `replay`.
set -u
FRAMES=$(readlink -f "$1")
REPLAY=$(readlink -f "$2")
export FRAMES REPLAY
cd "$(dirname "$0")/.." || exit 2
. tests/check.sh

files() { (cd "$1" && find . -name '*.sheet' -o -name '*.names' | sort); }
check "the builder compiles" rustc -O --edition 2021 -o "$work/build" examples/build/main.rs
check "the builder writes" "$work/build" "$work/built"
check "the same files" [ "$(files examples)" = "$(files "$work/built")" ]
for file in $(files "$work/built"); do check "$file is as built" cmp "examples/$file" "$work/built/$file"; done

verdict() { # sheet, depth, status, the first frame that is broken
  local said
  said=$(run_of "examples/$1.sheet" "$2"; echo $?)
  same "$4$3" "$(echo $said | tr -d ' ')"
}
found() { check "$1 at depth $2" verdict "$1" "$2" 10 "$2"; }
nothing() { check "$1 at depth $2" verdict "$1" "$2" 20 ""; }
nothing echo/chip 0
found echo/chip 1
nothing fourth-revision/faulty 2
found fourth-revision/faulty 3
nothing fourth-revision/repaired 16
nothing fifth-revision/faulty 0
found fifth-revision/faulty 1
nothing fifth-revision/repaired 16
nothing sixth-revision/unknown 0
found sixth-revision/unknown 1
nothing sixth-revision/cleared 16
nothing sixth-revision/repaired 16
nothing seventh-revision/faulty 1
found seventh-revision/faulty 2
nothing seventh-revision/repaired 16

# The README's formula is what the program prints.
sed -n '/^\$ .*target\/bin\/frames$/,/^```$/p' README.md | sed '1d;$d' > "$work/formula"
{ printf '%10d\n' 1; cat examples/echo/chip.sheet; } | "$FRAMES" > "$work/printed"
check "the README's formula" diff "$work/formula" "$work/printed"

# What the demo says is proved is the README's section: its points, numbered from 1, as many as docs/TRUST.md says.
bash scripts/proved.sh > "$work/proved"
check "what is proved is told" [ $? -eq 0 ]
words=(none one two three four five six seven eight nine ten eleven twelve)
told=$(sed -n 's/.*README.md#what-is-proved) tells in \([a-z]*\) points.*/\1/p' docs/TRUST.md)
points=$(grep -cE '^[0-9]+\. ' "$work/proved")
check "in as many points as docs/TRUST.md says: ${told:-none}" [ "${words[points]:-more}" = "$told" ]
check "numbered from 1" [ "$(grep -oE '^[0-9]+\. [A-Z]' "$work/proved" | tr -dc '0-9\n')" = "$(seq "$points")" ]
check "of one section" [ "$(grep -c '^#' "$work/proved")" -eq 0 ]

finish
