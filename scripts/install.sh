# For other scripts: `install_missing THING PACKAGE ..` installs the Debian package of each command, or file named by its full path,
# that is missing. It fails with a message where that is not possible.

present() { case $1 in /*) [ -e "$1" ] ;; *) command -v "$1" >/dev/null 2>&1 ;; esac }

install_missing() {
  local packages=() things=("$@") i
  for ((i = 0; i < $#; i += 2)); do
    present "${things[i]}" || packages+=("${things[i + 1]}")
  done
  [ ${#packages[@]} -eq 0 ] && return 0
  echo "installing ${packages[*]}"
  { apt-get update -qq && apt-get install -y -qq --no-install-recommends "${packages[@]}"; } >/dev/null 2>&1
  for ((i = 0; i < $#; i += 2)); do
    present "${things[i]}" && continue
    echo "${things[i]} is missing, and the package ${things[i + 1]} could not be installed (no network, or not root?)" >&2
    return 1
  done
}
