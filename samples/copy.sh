#!/usr/bin/env bash
# Copies the file of a database, also while it is served.
#
#   samples/copy.sh FILE TO
#
# A server has the file to itself, so stock sqlite3 is told that it is locked; but it writes nothing, and so a plain copy of the
# file, with that of the same name with `-wal`, is whole. Where a command wrote meanwhile, it is copied once more.
set -eu
case ${1-} in -h | --help) sed -n '2,/^[^#]/s/^# \{0,1\}//p' -- "$0"; exit ;; esac
umask 077 # the database holds tokens
file=${1:?the file of the database is to be given}
to=${2:?the file of the copy is to be given}

state() {
  stat -c '%n %i %s %y' -- "$file" "$file-wal" 2> /dev/null || true
}

[ -f "$file" ] || { echo "copy.sh: $file: no such file" >&2; exit 1; }
for ((try = 0; try < 20; try++)); do
  before=$(state)
  rm -f -- "$to" "$to-wal"
  cp -- "$file" "$to"
  [ ! -s "$file-wal" ] || cp -- "$file-wal" "$to-wal"
  [ "$(state)" != "$before" ] || exit 0
  sleep 1
done
echo "copy.sh: $file: it is written to all the time" >&2
exit 1
