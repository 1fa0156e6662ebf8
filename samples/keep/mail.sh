# keep.sh: the mail: what is taken into which list, what goes on in another one, and where it is put away.
# shellcheck shell=bash

# how many messages of the mbox went in before its list was full; nothing where something else was said
went_in() {
  case $answer in 'archive: E12 ListFull after '*) printf '%s' "${answer##* }" ;; esac
}

# makes mail.rest of what a list refused of an mbox, and adds the list that continues it, if it is not there
begin_next_list() {
  local db=$1 list=$2 next=$3 mbox=$4 after=$5 lines line
  "$here/copy.sh" "$db" mail.held || exit 1
  if ! lines=$(python3 "$here/keep/rest.py" mail.held "$list" "$next" policy.toml "$mbox" "$after" mail.rest.new); then
    note "$list is full, and is not continued: ${lines:-python3 found a fault}"
    return 1
  fi
  mv -T -- mail.rest.new mail.rest || exit 1
  while IFS= read -r line; do carry_out_line "$db" "$line"; done <<< "$lines"
  return 0
}

# Has lists that continue this one take what it refused of an mbox, if they may.
go_on() {
  local db=$1 list=$2 mbox=$3 after next number
  [ -e continue ] || return 1
  for ((number = 2; ; number++)); do
    next=${2}-$number
    after=$(went_in)
    [ -n "$after" ] && begin_next_list "$db" "$list" "$next" "$mbox" "$after" || return 1
    ! run import --db "$db" "$next" mail.rest || return 0
    list=$next mbox=mail.rest
  done
}

# takes an mbox in, and says where it is to go: a line of mail.now, with what a full list refused
take_in_mbox() {
  local db=$1 file=$2 list to after=
  list=${file#mail/} list=${list%%/*}
  to=mail.done/$list
  if ! run import --db "$db" "$list" "$file"; then
    after=$(went_in)
    if [ -n "$after" ] && go_on "$db" "$list" "$file"; then after=; else to=mail.refused/$list; fi
  fi
  printf '%s\0%s\0%s\0' "$file" "$to" "$after" >> mail.now || exit 1
}

# all mboxes that lie there, unless they were put off
take_in() {
  local file
  : > mail.now || exit 1
  ! is_put_off || return 0
  for file in mail/*/*.mbox; do take_in_mbox "$1" "$file"; done
  rm -f -- mail.rest* mail.held*
}

# puts away what was taken in or refused
put_away_mail() {
  local file to after name status=0
  put_away_refused || return
  while IFS= read -rd '' file && IFS= read -rd '' to && IFS= read -rd '' after; do
    name=$to/$(date +%Y%m%d%H%M%S)-${file##*/}
    { mkdir -p -- "$to" && mv -- "$file" "$name"; } || { status=1; continue; }
    [ -z "$after" ] || printf '%(%Y-%m-%dT%H:%M:%SZ)T %s: E12 ListFull after %s: %s\n' -1 "${to##*/}" "$after" "$name" >> full
  done < mail.now
  rm -f -- mail.now
  return "$status"
}
