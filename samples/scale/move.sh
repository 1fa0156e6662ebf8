#!/usr/bin/env bash
# Writes what brings a list from one shard to another, with nothing lost: its mail as an mbox, and lines for everywhere.sh.
#
#   samples/scale/move.sh FILE LIST TO INTO
#
# FILE is the database of the shard that has LIST, served or not, TO the shard that gets it, INTO a folder, which gets
#   LIST.mbox      every message of the list, withdrawn and embargoed ones too, in mailbox order, with sender and arrival
#   before         lines: the list, how it is threaded, all persons with their addresses, the grants on the list
#   after          lines, once the mail is in: what is withdrawn or embargoed
#   withdrawn      LIST/KEY of each message that is withdrawn, for publish.sh
# and tries them: an archive is made of before, LIST.mbox and after, and its rows have to be those of FILE. before and after hold tokens.
# What FILE takes in meanwhile is not in them, so have its mail wait from here until the move is done (docs/SCALE.md, "Move a list").
#
# Status 0 if the rows are the same; 1 if one is not, or LIST or FILE is not there; 2 for a usage error. ARCHIVE is the program.
set -eu
case ${1-} in -h | --help) sed -n '2,/^[^#]/s/^# \{0,1\}//p' -- "$0"; exit ;; esac
umask 077 # the lines hold tokens
export LC_ALL=C TZ=UTC

die() { echo "move.sh: $2" >&2; exit "$1"; }

[ $# -eq 4 ] || die 2 'FILE LIST TO INTO are to be given; --help says more'
file=$1 list=$2 to=$3 into=$4
[[ $list =~ ^[a-z][a-z0-9-]*$ ]] || die 2 "$list is no list"
command -v sqlite3 > /dev/null || die 1 'sqlite3 is not on the PATH'
here=$(dirname -- "$(readlink -f -- "$0")")
export ARCHIVE_PROVED=1 # no answer comes from a trial (docs/COMMANDS.md)
archive=${ARCHIVE:-$here/../../archive}
work=$(mktemp -d)
trap 'rm -rf -- "$work"' EXIT
mkdir -p -- "$into"

ask() { sqlite3 -batch -init /dev/null -separator ' ' "$work/$1.db" "$2"; }

# (a token that begins with `-` goes after `--`)
write_before() {
  ask a "SELECT 'person-add', CASE WHEN token LIKE '-%' THEN '-- ' ELSE '' END || name, token FROM person ORDER BY rowid"
  ask a "SELECT 'person-address', CASE WHEN address LIKE '-%' THEN '-- ' ELSE '' END || person, address FROM address ORDER BY rowid"
  echo "list-add $list"
  ask a "SELECT 'merge', list, 'no' FROM list_option WHERE list = '$list' AND merge = 0"
  ask a "SELECT 'grant', person, list, CASE kind WHEN 1 THEN 'member' WHEN 2 THEN 'subscriber' ELSE 'moderator' END,
    date(from_day * 86400, 'unixepoch'), date(until_day * 86400, 'unixepoch') FROM grant_row WHERE list = '$list' ORDER BY person, kind"
}

write_after() {
  ask a "SELECT 'withdraw', list, key, CASE withdrawn WHEN 1 THEN 'author' ELSE 'board' END FROM message WHERE list = '$list' AND withdrawn > 0 ORDER BY pos"
  ask a "SELECT 'embargo', list, key, date(embargo * 86400, 'unixepoch') FROM message WHERE list = '$list' AND embargo IS NOT NULL ORDER BY pos"
}

carry_out() {
  local words
  while read -ra words; do "$archive" "${words[0]}" --db "$work/b.db" "${words[@]:1}" > /dev/null; done < "$1"
}

# all that the tables say of the list, and of persons, but for the numbers of rows
sum_of() {
  ask "$1" "SELECT row_number() OVER (ORDER BY pos), key, hex(sender), arrival, hex(text), withdrawn, coalesce(embargo, '-'), sent, month, hex(author)
      FROM message WHERE list = '$list' ORDER BY pos;
    SELECT * FROM list WHERE name = '$list'; SELECT * FROM list_option WHERE list = '$list'; SELECT * FROM grant_row WHERE list = '$list' ORDER BY 1, 3;
    SELECT * FROM person ORDER BY name; SELECT * FROM address ORDER BY person" | sha256sum
}

"$here/../copy.sh" "$file" "$work/a.db"
[ "$(ask a "SELECT count(*) FROM list WHERE name = '$list'")" -eq 1 ] || die 1 "$file has no list $list"
printf '[[rule]]\nname = "all"\neffect = "allow"\n' > "$work/all.toml"
"$archive" export --db "$work/a.db" --policy "$work/all.toml" --day 2024-01-01 "$list" > "$into/$list.mbox"
write_before > "$work/before"
write_after > "$work/after"
carry_out "$work/before"
"$archive" import --db "$work/b.db" "$list" "$into/$list.mbox" > /dev/null
carry_out "$work/after"
[ "$(sum_of a)" = "$(sum_of b)" ] || die 1 "what was made of $list is not what it was"
sed "s/^/$to: /" "$work/before" > "$into/before"
sed "s/^/$to: /" "$work/after" > "$into/after"
sed -n "s|^withdraw $list \([0-9a-f]*\) .*|$list/\1|p" "$work/after" > "$into/withdrawn"
echo "$list: $(grep -c . "$into/after" || true) marks, and the same rows in $to as here"
