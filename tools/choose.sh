# How the launcher finds which program is of this tree where it does not remember it, and builds one where none is. It is no
# command: the launcher reads it in, with `here`, `marks`, `cache` and the function `state`.
. "$here/tools/tree.sh"

# What it takes to run the release on another machine than the one that made it.
release_needs() {
  echo "a Linux x86-64 with $(value_of "$manifest" needs), the C library being GLIBC $(value_of "$manifest" glibc) or newer"
}

# uname first: a shell would read a program of another machine as a script.
release_runs() { [ "$(uname -sm)" = "Linux x86_64" ] && "$released" --version; } </dev/null >/dev/null 2>&1

# Sets `taken` to what is of this tree, `built` or `release`, or to nothing, and `why` to what speaks against the release.
look() {
  begin_mark
  taken= why= tree=$(tree_sum)
  if is_built "$tree"; then
    taken=built
  elif [ "${YILGARTZU_BUILD-}" = 1 ]; then
    why="YILGARTZU_BUILD=1 asks for a program that was built here, and none is of these sources"
  else
    why=$(release_fault "$tree")
    [ -n "$why" ] || release_runs || why="the release does not run here: it needs $(release_needs)"
    [ -n "$why" ] || taken=release
  fi
}

# git lays the files of a pull while it holds its lock. So where nothing is of this tree it is looked at again, until it is
# twice the same and git is done, for some seconds at most.
settle() {
  lock=$here/.git/index.lock left=25 seen=
  if [ -f "$here/.git" ]; then lock=$(cd "$here" && cd "$(sed -n 's/^gitdir: //p' .git)" && pwd)/index.lock; fi
  while [ -z "$taken" ] && [ "$left" -gt 0 ] && { [ -e "$lock" ] || [ "$seen" != "$tree $why" ]; }; do
    left=$((left - 1))
    if [ -e "$lock" ]; then
      sleep 0.2
    else
      seen="$tree $why"
      look
    fi
  done
}

# All that the answer depends on, by name, each ended by a zero byte: each file, and each folder, which tells what comes and
# goes. Those into which a mark may have come are told by ./ in front.
depends() (
  cd "$here" && printf '%s\0' /lib64/ld-linux-x86-64.so.2 HANDLES crates.txt ./crates/updater_main || exit
  for path in ./crates/updater_main/out crates/updater_main/out/updater_main crates/updater_main/out/built release release/*; do
    if [ -e "$path" ]; then printf '%s\0' "$path"; fi
  done
  find $(source_folders) -print0
  source_folders | sed 's,/[^/]*$,,; /updater_main$/d' | sort -u | tr '\n' '\0'
)

# Begins a mark before anything is looked at, beside the program where that can be written, else among what the user keeps. Its
# time is a second before this moment by the clock of the disk, since a disk may keep times in whole seconds.
begin_mark() {
  [ -z "$list" ] || rm -f "$list"
  for folder in "$marks" "$cache"; do
    list=$(mkdir -p "$folder" 2>/dev/null && mktemp "$folder/of.XXXXXX" 2>/dev/null) && break
  done
  [ -n "$list" ] || return 0
  set -- $(date -r "$list" '+%s %N')
  began=$(($1 - 1)).$2
  depends >"$list"
  found=$(state "$list" "$list")
}

# Keeps what was found, whole at once, where nothing changed meanwhile. Without a mark all is looked at again at the next start.
keep_mark() {
  [ -n "$list" ] || return 0
  case $found in '' | *[!0-9.\ ]*) rm -f "$list" && return ;; esac
  # A start at the same moment may have kept its own mark, and taken this list away: then that one counts.
  {
    printf '%s\n' "$taken ${list##*/}" "$found" >"$list.mark" && touch -d "@$began" "$list.mark" &&
      chmod a+r "$list" "$list.mark" && mv -f "$list.mark" "$folder/mark"
  } 2>/dev/null || { rm -f "$list" "$list.mark" && return; }
  for old in "$folder"/of.*; do
    if [ "$old" != "$list" ]; then rm -f "$old"; fi
  done
}

# Builds the program, and ends with the launcher where that is ended.
build() {
  if ! command -v rt >/dev/null 2>&1; then
    echo "yilgartzu: to build the program from these sources the Rattle kit's command rt has to be on the PATH" >&2
    exit 1
  fi
  "$here/tools/build" &
  building=$!
  trap 'kill "$building"; wait "$building"; exit 130' INT TERM HUP
  wait "$building" || exit 1
  trap - INT TERM HUP
}

choose() {
  list=
  look
  settle
  if [ -z "$taken" ]; then
    echo "yilgartzu: $why" >&2
    build
    look
    if [ "$taken" != built ]; then
      echo "yilgartzu: what tools/build has left is not a program of this tree" >&2
      exit 1
    fi
  fi
  keep_mark
}
