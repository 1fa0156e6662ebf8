#!/usr/bin/env bash
# Takes a backup of an archive that samples/keep.sh keeps, also while it is served.
#
#   samples/backup.sh FOLDER TO [COUNT]
#
# FOLDER is the archive's. TO gets archive-DAY.db, and what an archive can be rebuilt from: policy.toml, commands.done, and mail.done,
# which only grow. If one of these is a link, it takes what the link leads to. Only its owner can read what it makes.
#
# The copy takes its name once stock sqlite3 and the archive's own `check` found it whole, with as many messages as were copied, and not
# fewer than the newest backup holds. TO/backups.made then has its name and how many messages it holds. Of the files that it
# lists and that still hold as many, the last COUNT stay (14). No other file is counted or removed, whatever its name.
#
# Status 1, and a line on standard error, if something is missing; then no older file is removed, and no copy stays. If the archive was rebuilt without
# some of its messages, move the older backups away first. ARCHIVE is the program.
set -eu
case ${1-} in -h | --help) sed -n '2,/^[^#]/s/^# \{0,1\}//p' -- "$0"; exit ;; esac
umask 077 # the database and the commands hold tokens
export LC_ALL=C
export ARCHIVE_PROVED=1 # no answer comes from a trial (docs/COMMANDS.md)
folder=${1:?the folder of the archive is to be given}
to=${2:?the folder of the backups is to be given}
count=${3:-14}
here=$(dirname -- "$(readlink -f -- "$0")")
archive=${ARCHIVE:-$here/../archive}

die() { echo "backup.sh: $*" >&2; exit 1; }

[[ $count =~ ^[1-9][0-9]*$ ]] || die "$count: one backup at least has to stay"
command -v sqlite3 > /dev/null || die 'sqlite3 is not on the PATH'
mkdir -p -- "$to"
made=$to/backups.made
name=archive-$(date -u +%F).db
new=$to/$name.new
tried=$new.tried

# asks stock sqlite3 about a file
ask() {
  sqlite3 -batch -init /dev/null "$1" "$2" 2>&1 || true
}

# how many messages a file holds; something else where it is no archive
messages() {
  ask "$1" 'SELECT count(*) FROM message'
}

# the backups that count, newest first: those that are written down and hold as many messages as they did, each with that number
counted() {
  local file number
  [ -e "$made" ] || return 0
  sort -ru -- "$made" | while read -r file number; do
    [ ! -f "$to/$file" ] || [ "$(messages "$to/$file")" != "$number" ] || echo "$file $number"
  done
}

# Tries the copy: sqlite3 takes in what stands in the file with -wal, and `check` has a copy of its own, because a newer program would
# bring the tables over.
try_copy() {
  local said
  had=$(messages "$new")
  said=$(ask "$new" 'PRAGMA integrity_check; PRAGMA foreign_key_check')
  [ "$said" = ok ] || die "$folder/archive.db: $said"
  cp -- "$new" "$tried"
  said=$("$archive" check --db "$tried" 2>&1) || die "$folder/archive.db: $said"
  said=$(messages "$tried")
  [ "$said" = "$had" ] || die "$folder/archive.db: of $had messages \`check\` had $said"
}

trap 'rm -f -- "$new" "$new-wal" "$new-shm" "$tried" "$tried-wal" "$tried-shm"' EXIT
"$here/copy.sh" "$folder/archive.db" "$new"
try_copy
read -r newest most <<< "$(counted | head -n 1)"
[ "$had" -ge "${most:-0}" ] || die "$folder/archive.db holds $had messages, and $to/$newest holds $most: nothing was taken"
rm -f -- "$new-wal" "$new-shm"
mv -- "$new" "$to/$name"
{ grep -v "^$name " -- "$made" 2> /dev/null || true; echo "$name $had"; } > "$made.new"
mv -- "$made.new" "$made"

for it in policy.toml commands.done mail.done; do
  [ -e "$folder/$it" ] || [ -L "$folder/$it" ] || continue
  # (a backup that holds a link holds nothing)
  [ ! -L "$to/$it" ] || rm -- "$to/$it"
  # (mail that is there is not copied again; a policy may be older than the one before it)
  case $it in mail.done) how=--update ;; *) how=--force ;; esac
  cp -rL "$how" --preserve=timestamps -- "$folder/$it" "$to/"
  chmod -R go= -- "$to/$it"
done
sync -- "$to/$name" "$made"

counted | tail -n "+$((count + 1))" | while read -r old _; do rm -- "$to/$old"; done
