# Runs a proved program with the words that it is given. Each program of programs.txt has a script in bin/ that reads this file, and its
# name says which program that is.
#
# usage: bin/PROGRAM WORDS.. < TEXT
#
# They can be called from any folder, and through links. Words that cannot begin a command by the usage line in programs.txt are answered
# at once, as the program does: the usage line, and status 2. Else bin/build proves and builds the program on first use, and again if a
# source has changed; if that fails, the status is 70. Else it is the program's, which judges all its words.
set -u
script=$(readlink -f "$0")
program=${script##*/}
top=$(cd "${script%/*}/.." && pwd)
. "$top/bin/programs.sh"

if ! is_program "$program"; then
  echo "launch: $program is none of the programs" >&2
  exit 64
fi
may_be_command "$program" "$@" || answer_usage "$program"
crate=$(crate_of "$program")
"$top/bin/build" "$crate" || exit 70
exec "$top/crates/$crate/out/$crate" "$@"
