#!/usr/bin/env bash
# Writes a news spool as an mbox: a folder with one file for each article, named by its number, as a reader of Gmane's groups
# over NNTP has it.
#
#   samples/from-news.sh FOLDER > MBOX
#
# An article's arrival is its NNTP-Posting-Date, or else its Date; where neither is one of the years 1900 to 9998, that of the
# article before it. An article that holds a line which begins another message (docs/MBOX.md) is counted as two by an import.
set -euo pipefail
case ${1-} in -h | --help) sed -n '2,/^[^#]/s/^# \{0,1\}//p' -- "$0"; exit ;; esac
export LC_ALL=C
folder=${1:?the folder of the articles is to be given}

# the first field of this name in the head of a file, in one line
field() {
  sed -n -e '/^\r*$/q' -e "/^$1:/I { :more; N; s/\r*\n[ \t]/ /; t more; s/^[^:]*: *//; s/\r*\n.*//p; q }" -- "$2"
}

# a date as a separator line has it, in UTC; none where it is none there
arrival_of() {
  local said
  # (what is in parentheses is a comment)
  said=$(date -u -d "${1%%(*}" '+%a %b %e %H:%M:%S %Y' 2> /dev/null) && [[ $said =~ \ (19|[2-9][0-9])[0-9][0-9]$ && $said != *9999 ]] && echo "$said"
}

arrival='Thu Jan  1 00:00:00 1970'
numbers=$(cd -- "$folder" && find . -maxdepth 1 -type f -name '[0-9]*' -printf '%f\n' | sort -n)
[ -n "$numbers" ] || { echo "from-news.sh: $folder: no articles" >&2; exit 1; }
while IFS= read -r number; do
  file=$folder/$number
  for name in NNTP-Posting-Date Date; do
    said=$(field "$name" "$file")
    if [ -n "$said" ] && said=$(arrival_of "$said"); then arrival=$said; break; fi
  done
  printf 'From - %s\n' "$arrival"
  cat -- "$file"
  # (a text ends in a line feed, and an empty line comes before the next separator)
  [ -z "$(tail -c 1 -- "$file")" ] || echo
  echo
done <<< "$numbers"
