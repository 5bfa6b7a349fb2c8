#!/usr/bin/env bash
# Reads what the prover says of each must-fail edit. An edit says in its comment why the wrong definition or program breaks a promise
# ('# counterexample: ..') and at which fact it is refused ('# refused at: NAME', a law, or a goal of a function's proof): one that is false of the
# wrong definition or program. It passes where the prover's first error stands at that name, or where no proof file is concerned and the prover's
# search leaves that goal open. An edit of several functions names each with its fact ('# refused at: FUNCTION/NAME', the first error in that
# function's proof files): a function's proof goes by the contracts of those that it calls, so each is refused on its own, in one check of the crate.
# A parse error, a name out of scope, a definition that no longer type checks, or a proof file that merely no longer fits the code shows nothing about
# the promise, and fails.
# `rt ci` tries each edit, and tells of each no more than its first error. So each is checked here once more, in a copy of the crates, over what
# `scripts/build.sh library` has built; what the prover said stands in target/must-fail/CRATE/EDIT/.log. It is kept, as rt keeps what it proved, by the
# checksum of all that the check read: the kit, the edit, its crate and those below. ANEW=1 checks all once more.
# Arguments: names of crates, or none for all.
set -u
cd "$(dirname "$0")/.." || exit 2
passed=0
failed=0
# a folder of this checkout alone, so that what rt notes of its copies is overwritten by the next run
rooms=${TMPDIR:-/tmp}/marrubigai-edits-$(pwd | cksum | cut -d ' ' -f 1)

kept=${XDG_CACHE_HOME:-$HOME/.cache}/marrubigai/must-fail

# The sum of each crate's files, and the crates that it stands on, itself among them.
note_sums() {
  local crate
  for crate in crates/*/; do
    crate=$(basename "$crate")
    find "crates/$crate/src" "crates/$crate/specs" "crates/$crate/proofs" -type f -print 2>/dev/null | LC_ALL=C sort | xargs -d '\n' sha256sum |
      sha256sum | sed "s/^/$crate /"
  done > "$rooms/sums"
  awk '/^[a-z]/ {
    crate = $0; sub(/[ :].*/, "", crate); all = " " crate " "
    for (n = split(substr($0, index($0, ":") + 1), import, " "); n > 0; n--)
      for (k = split(import[n] " " below[import[n]], each, " "); k > 0; k--) if (!index(all, " " each[k] " ")) all = all each[k] " "
    below[crate] = all
    print crate, all
  }' crates.txt > "$rooms/below"
  rt version > "$rooms/kit"
}
key_of() { # edit, crate
  { cat "$rooms/kit"; grep -v '^#' "$1"; awk -v crate="$2" 'FNR == NR { if ($1 == crate) for (k = 2; k <= NF; k++) wanted[$k]; next } $1 in wanted' "$rooms/below" "$rooms/sums"; } |
    sha256sum | cut -d ' ' -f 1
}

# Applies an edit to a crate's folder, as rt does: each 'old:' text stands once in its file. Prints the files, or fails.
apply() { # edit, folder
  local line path='' old='' count
  while IFS= read -r line; do
    case $line in
      'file: '*) path=${line#file: } ;;
      'old: '*) old=${line#old: } ;;
      'new:'*)
        line=${line#new:}
        [ -n "$old" ] && [ -f "$2/$path" ] || return 1
        OLD=$old NEW=${line# } awk '
          BEGIN { old = ENVIRON["OLD"] }
          {
            while ((at = index($0, old)) > 0) { printf "%s%s", substr($0, 1, at - 1), ENVIRON["NEW"]; $0 = substr($0, at + length(old)); count++ }
            print
          }
          END { exit count != 1 }' "$2/$path" > "$2/edited" || { rm -f "$2/edited"; return 1; }
        cat "$2/edited" > "$2/$path"
        rm "$2/edited"
        echo "$path"
        old=
        ;;
    esac
  done < "$1"
}

# Checks a crate with an edit, in the copy of this slot.
try() { # edit
  local edit=$PWD/$1 crate label room log path key
  crate=$(basename "$(dirname "$(dirname "$1")")")
  label=$(basename "$1" .edit)
  room=$rooms/$SLOT
  log=target/must-fail/$crate/$label/.log
  mkdir -p "${log%/*}" "$kept"
  key=$(key_of "$edit" "$crate")
  if [ -f "$kept/$key" ] && [ -z "${ANEW-}" ]; then cp "$kept/$key" "$log"; return; fi
  if [ ! -d "$room" ]; then
    mkdir -p "$room"
    cp crates.txt "$room"
    tar -cf - --exclude='crates/*/out' --exclude='crates/*/must-fail' crates | tar -xf - -C "$room"
  fi
  if apply "$edit" "$room/crates/$crate" > "$room/changed"; then
    (cd "$room/crates/$crate" && rt check --jobs 1) > "$log.new" 2>&1
    mv "$log.new" "$log"
    if grep -q '^logic=not-proved' "$log"; then cp "$log" "$kept/$key.$SLOT" && mv "$kept/$key.$SLOT" "$kept/$key"; fi
  else
    rm -f "$log"
  fi
  while IFS= read -r path; do cat "crates/$crate/$path" > "$room/crates/$crate/$path"; done < "$room/changed"
}

misfit='is not in scope|has no `|has no field|exports no|enclosing block|no `mod` line|that can be named from here'

# The goals that the prover's search leaves open: lines 'FUNCTION NAME'. A note of a goal stands before the line of its function.
opened() { # log
  awk '
    function names(text,   n, part, k) { n = split(text, part, "`"); for (k = 2; k <= n; k += 2) goal[++goals] = part[k] }
    /^note: src\/.* it is not proved that / {
      rest = $0
      while (match(rest, /\(`[^`]*`\)/)) { goal[++goals] = substr(rest, RSTART + 2, RLENGTH - 4); rest = substr(rest, RSTART + RLENGTH) }
    }
    /^fn [^ ]*: / {
      function_ = substr($2, 1, length($2) - 1); sub(/^[^:]*::/, "", function_); gsub(/::/, "/", function_)
      if (match($0, /`search` did not prove /)) names(substr($0, RSTART + RLENGTH))
      if ($0 ~ /: (no proof|not proved)/) for (k = 1; k <= goals; k++) print function_, goal[k]
      goals = 0
    }' "$1"
}

# The first error, of all or of the fact's function, or else the goals that the search left open there, one a line.
refused_at() { # log, errors, fact
  local errors=$2 function=
  case "$3" in
    */*)
      function=${3%/*}
      errors=$(grep -E "^(\./)?proofs/$function/[^/]*\.antt:" <<<"$errors")
      ;;
  esac
  if [ -n "$errors" ]; then head -n 1 <<<"$errors"; else opened "$1" | awk -v function_="$function" 'function_ == "" || $1 == function_ { print "open: `" $2 "`" }'; fi
}
is_refused_at() { # log, errors, fact
  refused_at "$@" | grep -vE "$misfit" | grep -qF -e "error: \`${3##*/}\`" -e "open: \`${3##*/}\`"
}

judge() { # edit file
  local crate label log errors first at
  crate=$(basename "$(dirname "$(dirname "$1")")")
  label=$(basename "$1" .edit)
  log=target/must-fail/$crate/$label/.log
  grep -q '^# refused at: ' "$1" || { echo "$crate/$label: no '# refused at:' line"; return 1; }
  [ "$(grep -c '^# counterexample: ' "$1")" -eq "$(grep -c '^# refused at: ' "$1")" ] ||
    { echo "$crate/$label: not one '# counterexample:' line for each '# refused at:' line"; return 1; }
  [ -f "$log" ] || { echo "$crate/$label: it cannot be applied"; return 1; }
  grep -q '^logic=not-proved' "$log" || { echo "$crate/$label: no verdict that it is not proved: $(tail -n 1 "$log" | cut -c 1-240)"; return 1; }
  # what only follows from another refusal is passed over
  errors=$(grep ': error: ' "$log" | grep -vE 'was not admitted|, (was|were) not checked')
  first=${errors%%$'\n'*}
  case "$first" in
    '' | 'proofs/'* | './proofs/'*) ;;
    *) echo "$crate/$label: refused outside proofs/: ${first:0:240}"; return 1 ;;
  esac
  if grep -qE "$misfit" <<<"$first"; then echo "$crate/$label: the proof file no longer fits: ${first:0:240}"; return 1; fi
  while IFS= read -r at; do
    is_refused_at "$log" "$errors" "$at" ||
      { echo "$crate/$label: not refused at $at, but: $(refused_at "$log" "$errors" "$at" | cut -c 1-200 | tr '\n' ' ')"; return 1; }
  done < <(sed -n 's/^# refused at: *//p' "$1")
}

if [ "${1-}" = --try ]; then try "$2"; exit; fi

edits=()
for edit in crates/*/must-fail/*.edit; do
  crate=${edit#crates/}
  case " $* " in '  ' | *" ${crate%%/*} "*) [ -e "$edit" ] && edits+=("$edit") ;; esac
done
jobs=$(awk -v most="$(nproc)" '/^MemAvailable:/ { fit = int($2 / 2500000) } END { print fit < 1 ? 1 : fit < most ? fit : most }' /proc/meminfo)
rm -rf "$rooms"
mkdir -p "$rooms"
note_sums
trap 'rm -rf "$rooms"' EXIT
began=$SECONDS
printf '%s\n' "${edits[@]}" | xargs -d '\n' -n 1 -P "$jobs" --process-slot-var=SLOT bash tests/edits.sh --try
for edit in "${edits[@]}"; do
  if judge "$edit"; then passed=$((passed + 1)); else failed=$((failed + 1)); fi
done
echo "${#edits[@]} edits, tried within $((SECONDS - began)) s"
echo "$passed passed, $failed failed"
[ "$failed" -eq 0 ] && [ "$passed" -gt 0 ]
