#!/usr/bin/env bash
# Shows what is in an archive: lists, persons with their addresses, grants, and messages that are withdrawn or embargoed. It asks
# stock sqlite3, of a copy, so that nothing is locked or changed, also while the archive is served. Tokens are not shown.
#
#   samples/show.sh FILE [LIST]     with a LIST also its messages: key, arrival, size, sender
#
# Which messages of an mbox were too large no table says: samples/mbox.py does.
set -eu
case ${1-} in -h | --help) sed -n '2,/^[^#]/s/^# \{0,1\}//p' -- "$0"; exit ;; esac
umask 077 # the copy holds tokens
file=${1:?the file of the database is to be given}
command -v sqlite3 > /dev/null || { echo "show.sh: sqlite3 is not on the PATH" >&2; exit 1; }
folder=$(mktemp -d)
trap 'rm -rf -- "$folder"' EXIT
"$(dirname -- "$(readlink -f -- "$0")")/copy.sh" "$file" "$folder/a.db"

ask() {
  sqlite3 -batch -init /dev/null -separator $'\t' "$folder/a.db" "$@"
}

# whether there is a table of this name: files of older versions lack some
has() {
  [ "$(ask "SELECT count(*) FROM sqlite_schema WHERE type = 'table' AND name = '$1'")" -eq 1 ]
}

echo '# lists: name, messages, bytes, withdrawn, embargoed, how full (of 50,000 messages)'
ask "SELECT l.name, count(m.pos), coalesce(sum(length(m.text)), 0), count(nullif(m.withdrawn, 0)), count(m.embargo),
  printf('%.1f%%', count(m.pos) / 500.0)
  FROM list l LEFT JOIN message m ON m.list = l.name GROUP BY l.name ORDER BY l.name"
echo '# lists whose threads are not joined by subject'
! has list_option || ask "SELECT list FROM list_option WHERE merge = 0 ORDER BY list"
echo '# persons'
ask "SELECT name FROM person ORDER BY name"
echo '# addresses: person, address'
! has address || ask "SELECT person, address FROM address ORDER BY person"
echo '# grants: person, list, kind, from, until'
ask "SELECT person, list, CASE kind WHEN 1 THEN 'member' WHEN 2 THEN 'subscriber' ELSE 'moderator' END,
  date(from_day * 86400, 'unixepoch'), date(until_day * 86400, 'unixepoch') FROM grant_row ORDER BY person, list, kind"
echo '# messages with marks: list, key, withdrawn by, embargo until'
ask "SELECT list, key, CASE withdrawn WHEN 1 THEN 'author' WHEN 2 THEN 'board' ELSE '' END,
  coalesce(date(embargo * 86400, 'unixepoch'), '') FROM message WHERE withdrawn > 0 OR embargo IS NOT NULL ORDER BY list, pos"
[ $# -lt 2 ] || {
  echo "# messages of $2: key, arrival, bytes, sender"
  ask ".param init" ".param set :list \"'${2//[^a-z0-9-]/}'\"" "SELECT key, datetime(arrival, 'unixepoch'), length(text), CAST(sender AS TEXT)
    FROM message WHERE list = :list ORDER BY pos"
}
