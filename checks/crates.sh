# What bin/build, bin/audit and stress/bodies share: a copy of crates and of all crates below them, and how all is proved from nothing. To
# be read by `.` in bash, in a script that has set `top`.

# The lines of crates.txt for some crates and for all crates below them.
lines_of() {
  awk -v wanted="$*" '
    !/^#/ && /:/ { split($0, halves, ":"); split(halves[1], head, " "); uses[head[1]] = halves[2]; line[head[1]] = $0 }
    function visit(name, parts, i, n) {
      if (!(name in uses) || (name in seen)) return
      seen[name] = 1
      n = split(uses[name], parts, " ")
      for (i = 1; i <= n; i++) visit(parts[i])
      print line[name]
    }
    END { n = split(wanted, names, " "); for (i = 1; i <= n; i++) visit(names[i]) }' "$top/crates.txt"
}

# Copies to a new folder what the kit reads of some crates and of those below them, but no must-fail edits, and makes the folder the top of a
# repository: copy_crates FOLDER CRATE..
copy_crates() {
  local each part to=$1
  shift
  mkdir -p "$to/.git" && cp "$top/HANDLES" "$to" && lines_of "$@" > "$to/crates.txt" || return 1
  while IFS= read -r each; do
    each=${each%%[ :]*}
    mkdir -p "$to/crates/$each"
    for part in src specs proofs stdin stdout args status data; do
      [ ! -e "$top/crates/$each/$part" ] || cp -R "$top/crates/$each/$part" "$to/crates/$each/" || return 1
    done
  done < "$to/crates.txt"
}

# The word that has `rt ci` and `rt must-fail` prove all from nothing, in a kit that keeps proofs. Others prove all from nothing anyway.
word_for_nothing_kept() {
  rt help 2>&1 | grep -o -- --anew | head -n 1
}
