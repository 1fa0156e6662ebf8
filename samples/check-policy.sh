#!/usr/bin/env bash
# Says of a policy whom it shows what, by trying it: a table of readers by kinds of messages, for each list that the policy names, and for
# one that it does not name.
#
#   samples/check-policy.sh POLICY [DAY]      as of DAY, today where none is given
#
# The messages came on the day, or a hundred years before; they are as they came, withdrawn by their author or the board, or embargoed.
# Each cell is what `get` says on that day to a reader of that standing: `shown`, or `denied` and the rule. `author` is a person
# without a grant whose address the message has in From.
#
# If the public is shown a withdrawn or embargoed message, a line below the table says so. Such a policy is one: the status is 0. It is 1
# if the text is no policy.
set -eu
case ${1-} in -h | --help) sed -n '2,/^[^#]/s/^# \{0,1\}//p' -- "$0"; exit ;; esac
policy=${1:?the policy is to be given}
day=${2:-$(date -u +%F)}
export ARCHIVE_PROVED=1 # no answer comes from a trial (docs/COMMANDS.md)
archive=${ARCHIVE:-$(dirname -- "$(readlink -f -- "$0")")/../archive}
folder=$(mktemp -d)
trap 'rm -rf -- "$folder"' EXIT
readers=(public member subscriber moderator author)

# runs a command on the archive, which says nothing
tell() {
  "$archive" "$1" --db "$folder/a.db" "${@:2}" > /dev/null
}

# an mbox of one message of these marks that came on this day; `key` is its key
write_mail() {
  local arrival
  arrival=$(LC_ALL=C date -u -d "$1" '+%a %b %e 12:00:00 %Y')
  printf 'From: author@example.org\nSubject: %s\n' "$2" > "$folder/text"
  { printf 'From author@example.org %s\n' "$arrival"; cat -- "$folder/text"; echo; } > "$folder/mbox"
  key=$(sha256sum < "$folder/text")
  key=${key%% *}
}

# the lists that the policy names, and one that it does not
lists() {
  { tr '\n' ' ' < "$policy" | grep -oE "lists *= *\[[^]]*\]" | grep -oE "[\"'][a-z][a-z0-9-]*[\"']" | tr -d "\"'"; echo other; } | sort -u
}

# what a reader is answered for the message
ask() {
  local said
  if said=$("$archive" get --db "$folder/a.db" --policy "$policy" --day "$day" --person "$2" "$1" "$key" 2>&1); then
    echo shown
  else
    echo "denied ${said##*denied by }"
  fi
}

row() {
  printf '%-24s' "$1"
  printf '%-20s' "${@:2:4}"
  printf '%s\n' "${@:6}"
}

# one kind of message on a list, as it came (no mark) or marked by a command: a row, and whether it is hidden from the public
try_kind() {
  local list=$1 when=$2 age=$3 name=$4 mark=("${@:5}") cells=() it
  write_mail "$when" "$age $name"
  tell import "$list" "$folder/mbox"
  [ "${#mark[@]}" -eq 0 ] || tell "${mark[0]}" "$list" "$key" "${mark[1]}"
  for it in "${readers[@]}"; do cells+=("$(ask "$list" "$it")"); done
  row "${name:-$age}" "${cells[@]}"
  if [ "${#mark[@]}" -gt 0 ] && [ "${cells[0]}" = shown ]; then open+=("on the list $list, $age,$name"); fi
}

# all kinds of messages that came on this day
try_day() {
  local list=$1 when=$2 age=$3
  try_kind "$list" "$when" "$age" ''
  try_kind "$list" "$when" "$age" '  withdrawn by author' withdraw author
  try_kind "$list" "$when" "$age" '  withdrawn by board' withdraw board
  try_kind "$list" "$when" "$age" '  embargoed' embargo "$later"
}

"$archive" sift --policy "$policy" < /dev/null
old=$(date -u -d "$day -36500 days" +%F)
[[ ! $old < 1900-01-01 ]] || old=1900-01-01
later=$(date -u -d "$day +1 day" +%F)
open=()
for it in "${readers[@]}"; do tell person-add "$it" "0123456789-$it"; done
tell person-address author author@example.org
for list in $(lists); do
  tell list-add "$list"
  for it in member subscriber moderator; do tell grant "$it" "$list" "$it" "$day" "$day"; done
  row "list $list" "${readers[@]}"
  try_day "$list" "$day" 'of that day'
  try_day "$list" "$old" old
done
for it in "${open[@]}"; do echo "The public is shown what is withheld: ${it//,  /, }"; done
