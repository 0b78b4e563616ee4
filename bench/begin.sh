# shellcheck shell=bash
# What the benchmarks in bash begin with, by `. "$(dirname "$0")/begin.sh"`. It leaves
#   here, top   the folder of the benchmarks, and the repository
#   work        a folder of the run alone, which is removed at its end
#   figures     `figure` for a program of awk, as bench/figures.py has it for Python
#   measure     runs a text of Python, given on standard input, with that module and these words
#   built       the path of the program: the one that PROGRAM names, else the launcher's, which it proves and builds first
#               where it is not there
#   packages    installs the Debian packages with these names where root runs it and they are missing; else tells which, and ends
#   server      starts a PostgreSQL server of the run alone in $work/cluster, which is stopped at its end
# Words that are not numbers from 1, or more than the benchmark's usage line has, print that line and end in 2.
set -euo pipefail
here=$(cd "$(dirname "${BASH_SOURCE[0]}")" && pwd)
top=$(dirname "$here")
usage=$(sed -n 's/^# usage: //p' "$0")
taken=${usage//[^\[]/}
for word in "$@"; do
  if [[ ! $word =~ ^[1-9][0-9]*$ ]] || [ $# -gt ${#taken} ]; then
    echo "usage: $usage" >&2
    exit 2
  fi
done
work=$(mktemp -d)
trap 'rm -rf "$work"' EXIT

# Tells a figure: its name, what it is made of, its value with so many places behind the point, its unit, and `at most` or
# `at least` with its bound, or neither. `missed` is then whether some figure missed its bound.
# shellcheck disable=SC2034
figures='
  function figure(name, of, value, places, unit, side, bound, misses) {
    misses = side == "at most" && value > bound || side == "at least" && value < bound
    missed = missed || misses
    value = sprintf("%." places "f", value) (unit == "" ? "" : " " unit)
    printf "%-62s  %24s  %9s (%s%s)\n", name, of, value, side == "" ? "no bound" : side " " bound, misses ? ", missed" : ""
    fflush()
  }
'

measure() { BENCH=bench/${0##*/} PYTHONPATH=$here:$here/osm2pgsql PYTHONDONTWRITEBYTECODE=1 python3 - "$@"; }

# By which a package is known to be there: a command, or a file.
declare -A known_by=(
  [gcc]=cc [osm2pgsql]=osm2pgsql [osmium-tool]=osmium [postgis]=shp2pgsql [sqlite3]=sqlite3 [strace]=strace
  [postgresql]='/usr/lib/postgresql/*/bin/initdb' [postgresql-postgis]='/usr/share/postgresql/*/extension/postgis.control'
)

packages() {
  local name lacking=()
  for name in "$@"; do
    command -v "${known_by[$name]}" >/dev/null || compgen -G "${known_by[$name]}" >/dev/null || lacking+=("$name")
  done
  if [ ${#lacking[@]} = 0 ]; then return; fi
  if [ "$(id -u)" != 0 ] || ! command -v apt-get >/dev/null; then
    echo "bench/${0##*/}: these Debian packages are missing: ${lacking[*]}" >&2
    exit 1
  fi
  echo "bench/${0##*/}: installing ${lacking[*]}" >&2
  apt-get -q update >&2
  DEBIAN_FRONTEND=noninteractive apt-get -q install -y --no-install-recommends "${lacking[@]}" >&2
}

server() {
  trap '"$here/osm2pgsql/cluster" stop "$work/cluster" || true; rm -rf "$work"' EXIT
  # The server runs as another user where this runs as root.
  chmod 711 "$work"
  "$here/osm2pgsql/cluster" start "$work/cluster"
}

built() {
  if [ -n "${PROGRAM-}" ]; then
    echo "$PROGRAM"
    return
  fi
  YILGARTZU_BUILD=1 "$top/yilgartzu" --version >"$work/version" && echo "$top/crates/updater_main/out/updater_main"
}
