#!/usr/bin/env bash
# Prints what is proved, as the README's section of that name tells it, without the marks of the page.
set -u
cd "$(dirname "$0")/.." || exit 2
awk '
  /^## / { inside = $0 == "## What is proved"; next }
  inside { found = 1; gsub(/[*`]/, ""); gsub(/\[|\]\([^)]*\)/, ""); print }
  END { exit !found }' README.md
