#!/usr/bin/env bash
# crates.txt: each crate stands once, in a family, and imports only crates before it; one check for each. The table of families in
# docs/ARCHITECTURE.md, and the graph and the figure beside it, are those of crates.txt. The places that the pages for contributors name are there. And
# each name that a file imports is used there: one check for each.
set -u
cd "$(dirname "$0")/.." || exit 2

order() { # a list of crates: read for their places, then for their imports
  awk '
    /^#/ { if (/^# [^:]+: ./) families++; else { failed++; print "FAILED: a comment that names no family: " $0 }; next }
    { colon = index($0, ":"); crate = $0; sub(/[ :].*/, "", crate) }
    FNR == NR { place[crate] = FNR; times[crate]++; named[crate] = families; next }
    {
      why = times[crate] == 1 ? "" : " stands there " times[crate] " times"
      if (!named[crate]) why = why " stands in no family"
      for (n = split(substr($0, colon + 1), import, " "); n > 0; n--)
        if (import[n] in place && place[import[n]] >= FNR) why = why " imports " import[n] ", which stands behind it"
      if (why == "") passed++; else { failed++; print "FAILED: " crate why }
    }
    END { printf "%d passed, %d failed\n", passed, failed }' "$1" "$1"
}

holds() { # what is wrong where the command fails, command ..
  local said
  if said=$("${@:2}" 2>&1); then echo "1 passed, 0 failed"; else printf '%s\n' "$(head -n 5 <<<"$said")" "FAILED: $1" "0 passed, 1 failed"; fi
}
table() { sed -n '/^<!-- families -->$/,/^<!-- end -->$/p' docs/ARCHITECTURE.md | sed '1d;$d'; }
families() { awk -v form="$1" -f scripts/families.awk crates.txt; }

# The files and folders that pages name are there, a file of definitions without its ending; those of no crate in particular are passed over.
places() { # pages
  local place
  for place in $(grep -ho '`[^` ]*/[^` ]*`' "$@" | tr -d '`' | grep -vE 'NAME|^(src|specs|proofs|must-fail|target)/' | sort -u); do
    holds "there is no $place" [ -e "$place" -o -e "crates/$place" -o -e "crates/$place.antt" ]
  done
}

# A name is used where it is a word of the rest of the file, comments apart; an operator where its parts are.
imports() { # files
  awk '
    function words(text,   n, part) {
      if (text ~ /\[\]/) word["[]"]
      for (n = split(text, part, /[][ (){};,.]+/); n > 0; n--) word[part[n]]
      if (file ~ /\.rt$/) for (n = split(text, part, /[^A-Za-z0-9_]+/); n > 0; n--) word[part[n]]
    }
    function used(name,   n, part) {
      if (name in word) return 1
      if (name !~ /◌/) return 0
      for (n = split(name, part, /◌/); n > 0; n--) if (part[n] != "" && !(part[n] in word)) return 0
      return 1
    }
    function finish(   name) {
      for (name in imported) if (used(name)) passed++; else { failed++; print "FAILED: " file " imports " name " and does not use it" }
      split("", imported); split("", word)
    }
    FNR == 1 { finish(); file = FILENAME }
    /^ *(--|\/\/)/ { next }
    { sub(/ (--|\/\/) .*/, "") }
    /^(ghost )?use / {
      sub(/;$/, "")
      if (sub(/^[^{]*\{/, "")) { sub(/\}$/, ""); n = split($0, name, /, */) } else { n = 1; name[1] = $NF; sub(/.*\./, "", name[1]) }
      for (; n > 0; n--) { sub(/.*( as |::)/, "", name[n]); imported[name[n]] }
      next
    }
    { words($0) }
    END { finish(); printf "%d passed, %d failed\n", passed, failed }' "$@"
}
sample=$(mktemp)
trap 'rm -f "$sample"' EXIT

{
  order crates.txt
  # of the sample, b stands before what it imports, c twice, and d in no family
  printf '%s\n' 'd:' '# f: one' 'a: io d' 'b: c' 'c: a' 'c: a' > "$sample"
  holds "the rule of the order" [ "$(order "$sample" | tail -n 1)" = "1 passed, 4 failed" ]
  holds "the table of families is not that of crates.txt (make figure)" diff <(table) <(families table)
  holds "docs/architecture.dot is not the graph of crates.txt (make figure)" diff docs/architecture.dot <(families dot)
  holds "docs/architecture.svg is not drawn from docs/architecture.dot (make figure)" \
    grep -qxF "<!-- graph: $(cksum < docs/architecture.dot) -->" docs/architecture.svg
  places CONTRIBUTING.md docs/ARCHITECTURE.md
  printf '%s\n' '`model/specs/Claim` and `model/specs/Claims`' > "$sample"
  holds "the rule of places" [ "$(places "$sample" | grep -c '^1 passed')" = 1 ]
  imports $(find crates \( -path '*/must-fail' -o -path 'crates/*/out' \) -prune -o \( -name '*.antt' -o -name '*.rt' \) -print | sort)
  # of the sample b and ◌*◌ are not used
  printf '%s\n' 'use A.{b, c as d, ◌+◌, ◌*◌, if◌then◌}' '-- b * f' 'd = if 1 then 2 + 3 -- b' > "$sample"
  holds "the rule of imports" [ "$(imports "$sample" | tail -n 1)" = "3 passed, 2 failed" ]
} | awk '
  /^[0-9]+ passed, [0-9]+ failed$/ { passed += $1; failed += $3; next }
  { print }
  END { printf "%d passed, %d failed\n", passed, failed; exit failed > 0 || passed == 0 }'
