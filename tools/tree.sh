# Of which tree a program is, by content: the functions that the launcher, tools/build, tools/release and .ci/run share. It is
# no command: a script of sh or bash sets `here`, the top of the tree, and reads it in with `.`.

built=$here/crates/updater_main/out/updater_main
built_mark=$here/crates/updater_main/out/built
released=$here/release/yilgartzu-x86_64.bin
manifest=$here/release/MANIFEST

# The lines of crates.txt that the program stands on, updater_main's own among them, without comments.
crate_lines() {
  awk '
    { sub(/#.*/, ""); gsub(/[ \t\r]+/, " "); sub(/^ /, ""); sub(/ $/, "") }
    /:/ { name = $0; sub(/[ :].*/, "", name); line[name] = $0; uses[name] = $0; sub(/[^:]*:/, "", uses[name]) }
    function reach(name, at, count, names) {
      if (name in reached || !(name in line)) return
      reached[name]
      count = split(uses[name], names, " ")
      for (at = 1; at <= count; at++) reach(names[at])
      print line[name]
    }
    END { reach("updater_main") }' "$here/crates.txt"
}

# The folders, from the top on, that hold what these crates are built from.
source_folders() {
  crate_lines | while IFS=' :' read -r name rest; do
    for part in src specs proofs; do
      if [ -d "$here/crates/$name/$part" ]; then echo "crates/$name/$part"; fi
    done
  done
}

# The tree's checksum: over HANDLES, the lines of crates.txt, and each file of those folders by its path and content. Where
# the tree lies, the locale and the order of files and lines change nothing.
tree_sum() (
  cd "$here" && LC_ALL=C && export LC_ALL || exit
  sums=$(find HANDLES $(source_folders) ! -type d -print0 | sort -z | xargs -0 sha256sum) || exit
  { crate_lines | sort && echo "$sums"; } | sha256sum | cut -d ' ' -f 1
)

sum_of() { sha256sum <"$1" | cut -d ' ' -f 1; }

# A value of a file of `name value` lines.
value_of() { sed -n "s/^$2 //p" "$1" 2>/dev/null; }

# Whether the program that was built here is of the tree with this checksum: its mark names both.
is_built() {
  [ -n "$1" ] && [ -x "$built" ] && [ "$(value_of "$built_mark" tree)" = "$1" ] &&
    [ "$(value_of "$built_mark" program)" = "$(sum_of "$built")" ]
}

# Marks the program that was just built as one of the tree with this checksum, which was taken as the build began.
mark_built() {
  if [ "$(tree_sum)" != "$1" ]; then
    echo "yilgartzu: the sources changed while the program was built from them, so it has no mark of this tree" >&2
    return 1
  fi
  printf 'tree %s\nprogram %s\n' "$1" "$(sum_of "$built")" >"$built_mark.part" && mv -f "$built_mark.part" "$built_mark"
}

# The last line of a manifest is the checksum of those above it.
manifest_end() { echo "manifest $(sha256sum | cut -d ' ' -f 1)"; }

# Why the release is not a whole one of the tree with this checksum; nothing where it is.
release_fault() {
  if [ ! -f "$manifest" ] || [ ! -f "$released" ]; then
    echo "the release is not there: release/ lacks MANIFEST or yilgartzu-x86_64.bin"
  elif ! { sed '$d' "$manifest" && sed '$d' "$manifest" | manifest_end; } | cmp -s - "$manifest"; then
    echo "the release is not whole: release/MANIFEST was changed"
  elif [ "$(value_of "$manifest" program)" != "$(sum_of "$released")" ]; then
    echo "the release is not whole: release/yilgartzu-x86_64.bin is not the program that release/MANIFEST names"
  elif [ ! -x "$released" ]; then
    echo "the release is not whole: release/yilgartzu-x86_64.bin may not be executed (chmod +x lets it)"
  elif [ "$(value_of "$manifest" tree)" != "$1" ]; then
    echo "the release is of other sources than these"
  fi
}
