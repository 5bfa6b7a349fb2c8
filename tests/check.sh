# For the other scripts: counted checks, a folder for their files that goes when they end, and the total as the last line.

passed=0
failed=0
check() { # what, command ..
  local name=$1
  shift
  if "$@"; then passed=$((passed + 1)); else failed=$((failed + 1)); echo "FAILED: $name"; fi
}
same() { [ "$1" = "$2" ] || { diff <(printf '%s\n' "$1") <(printf '%s\n' "$2"); return 1; } }
finish() { echo "$passed passed, $failed failed"; [ "$failed" -eq 0 ] && [ "$passed" -gt 0 ]; exit; }

work=$(mktemp -d)
trap 'rm -rf "$work"' EXIT

line() { printf "%s%10s%10s%10s\n" "$1" "${2-}" "${3-}" "${4-}"; } # of a sheet

# The first frame in which a run to this depth breaks the property of a sheet, by the programs $FRAMES and $REPLAY and a solver; the statuses are those
# of the command.
run_of() { # sheet, depth
  { printf '%10d\n' "$2"; cat "$1"; } > "$work/asked"
  "$FRAMES" < "$work/asked" > "$work/asked.cnf"
  cadical --strict -q "$work/asked.cnf" > "$work/answer"
  case $? in
    10) (cd "$work" && "$REPLAY" < asked) | head -n 1; return 10 ;;
    20) return 20 ;;
    *) return 1 ;;
  esac
}
# the earliest, asked anew at each depth
earliest() { # sheet, depth
  local k first status
  for ((k = 0; k <= $2; k++)); do
    first=$(run_of "$1" "$k")
    status=$?
    [ $status -eq 20 ] && continue
    [ $status -eq 10 ] && [ "$first" = "$k" ] && echo "$1: the property is broken in frame $k at the earliest"
    return $status
  done
  echo "$1: no run breaks the property in frames 0 to $2"
  return 20
}
