# The programs, as programs.txt has them, and which words they refuse at once. For bash, to be read by `.` in a script that has set `top`.

# The names of the programs, one a line.
programs() {
  sed -n 's/^\([a-z_]*\) [^:]*:.*/\1/p' "$top/programs.txt"
}

is_program() {
  programs | grep -qxF -- "${1-}"
}

# The crate of a program.
crate_of() {
  sed -n "s/^$1 \([a-z0-9_]*\)[^:]*:.*/\1/p" "$top/programs.txt"
}

# The program of a crate.
program_of() {
  sed -n "s/^\([a-z_]*\) $1[ :].*/\1/p" "$top/programs.txt"
}

# What the usage line of a program has after its name, with the blank before it.
usage_of() {
  sed -n "s/^$1 [^:]*://p" "$top/programs.txt"
}

# Writes the usage line of a program to standard error, and ends with the status of words that are no command.
answer_usage() {
  printf 'usage: %s%s\n' "$1" "$(usage_of "$1")" >&2
  exit 2
}

# The words that a command of a program can begin with, one a line, by its usage line, and an empty line if there may be no words.
first_words() {
  local parts part may_begin=1 is_begun='' depth=0
  read -ra parts <<< "$(usage_of "$1")"
  for part in "${parts[@]}" '|'; do
    if [[ $part == '|' ]]; then
      ((depth)) || [[ $is_begun ]] || echo
      ((depth)) || is_begun=
      may_begin=1
      continue
    fi
    while [[ $part == \[* ]]; do
      part=${part#\[} depth=$((depth + 1)) may_begin=1
    done
    [[ ! $may_begin || $is_begun ]] || echo "${part%%]*}"
    may_begin=
    ((depth)) || is_begun=1
    while [[ $part == *\] ]]; do
      part=${part%\]} depth=$((depth - 1))
    done
  done
}

# Whether words may be a command of a program, by the first of them or by there being none. The program itself judges the rest.
may_be_command() {
  local LC_ALL=C first
  while IFS= read -r first; do
    if (($# == 1)); then
      [[ $first ]] || return 0
    elif [[ $first && ($first == "${2%%=*}" || $first =~ ^([a-z]|[A-Z]+)$) ]]; then
      return 0
    fi
  done < <(first_words "$1")
  return 1
}
