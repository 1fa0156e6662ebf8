#!/usr/bin/env bash
# Checks files of databases, such as backups, also while one is served, and changes none.
#
#   samples/check.sh FILE ..
#
# For each file it prints how many messages each list holds, and what the program's `check` says of a copy. A file that is not there is
# refused: `archive check --db FILE` would make an empty archive of that name, and find it whole.
#
# Status 0 if all are whole; 1 if one is not there or is not whole, with the reason on standard error; 2 if no file is given. It wants
# sqlite3, and room for a copy in TMPDIR. ARCHIVE is the program.
set -u
case ${1-} in -h | --help) sed -n '2,/^[^#]/s/^# \{0,1\}//p' -- "$0"; exit ;; esac
umask 077 # the copy holds tokens
export ARCHIVE_PROVED=1 # no answer comes from a trial (docs/COMMANDS.md)
[ $# -gt 0 ] || { echo 'check.sh: a file is to be given; --help says more' >&2; exit 2; }
command -v sqlite3 > /dev/null || { echo 'check.sh: sqlite3 is not on the PATH' >&2; exit 1; }
here=$(dirname -- "$(readlink -f -- "$0")")
archive=${ARCHIVE:-$here/../archive}
work=$(mktemp -d) || exit 1
trap 'rm -rf -- "$work"' EXIT

# checks one file: what it says is for its line
check() {
  [ -f "$1" ] || { echo 'no such file'; return 1; }
  [ -s "$1" ] || { echo 'the file is empty'; return 1; }
  rm -f -- "$work"/*
  "$here/copy.sh" "$1" "$work/a.db" 2>&1 || return
  "$archive" check --db "$work/a.db" 2>&1 || return
  sqlite3 -batch -init /dev/null -separator ' ' "$work/a.db" \
    'SELECT l.name, count(m.pos) FROM list l LEFT JOIN message m ON m.list = l.name GROUP BY l.name ORDER BY l.name' 2>&1
}

status=0
for file in "$@"; do
  if said=$(check "$file"); then
    while IFS= read -r line; do printf '%s: %s\n' "$file" "$line"; done <<< "$said"
  else
    echo "check.sh: $file: ${said##*$'\n'}" >&2
    status=1
  fi
done
exit "$status"
