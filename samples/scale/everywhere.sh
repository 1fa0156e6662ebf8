#!/usr/bin/env bash
# Gives lines of commands to one shard or to all, in one order, so that each shard carries out all of them once.
#
#   samples/scale/everywhere.sh ROOT < LINES          notes the lines down as a batch, and gives each shard what it lacks
#   samples/scale/everywhere.sh ROOT --again          gives each shard what it lacks: of one that was away
#   samples/scale/everywhere.sh ROOT --state          a line for each shard: its name, the newest batch that it carried out, and how
#                                                     many lines of that batch it refused
#   samples/scale/everywhere.sh ROOT --refused        the lines of its newest batch that a shard refused, and what it said
#
# ROOT holds a folder for each shard that samples/keep.sh keeps, and ROOT/everywhere/, where the batches lie, numbered. A line is one
# of keep.sh's; `SHARD: LINE` is for that shard alone. A person has to be known on every shard: a reader who sends a token that a
# shard does not know gets 401 there, also for pages for the public.
#
# Each batch ends with a mark, `person-add at-N mark.N` with N of twelve digits: a person without grants, whom a server knows exactly
# where it serves what that batch did. So `curl -H 'Authorization: Bearer mark.N' ADDRESS/` is 200 there, and 401 where it lags.
#
# Status 0; of --state 1 if a shard has not carried out the newest batch, of --refused 1 if one refused a line; 2 if a line is for a
# shard that is not there, or for a usage error: then nothing is noted down. A shard that is away finds its lines when it is there
# again, in the order of their numbers (keep.sh's commands.d).
set -eu
case ${1-} in -h | --help) sed -n '2,/^[^#]/s/^# \{0,1\}//p' -- "$0"; exit ;; esac
umask 077 # the lines hold tokens
export LC_ALL=C

die() { echo "everywhere.sh: $*" >&2; exit 2; }

[ -d "${1-}" ] || die "the folder of the shards is to be given; --help says more"
root=$(readlink -f -- "$1")
all=$root/everywhere
mkdir -p -- "$all"
exec 9> "$all/lock"
flock 9

# the batches, oldest first
batches() {
  local file
  for file in "$all"/????????????; do [ ! -e "$file" ] || basename -- "$file"; done
}

# the newest batch of which this shard's file of what was done has the mark
done_of() {
  sed -nE 's/^person-add at-([0-9]{12}) .*/\1/p' "$root/$1/commands.done" 2> /dev/null | tail -n 1 | grep . || echo 000000000000
}

# what of this batch is for this shard, without the mark
lines_of() {
  awk -v shard="$2:" '
    $1 !~ /^[a-z].*:$/ { print; next }
    $1 == shard { sub(/^[ \t]*[^ \t]+[ \t]+/, ""); print }' "$all/$1"
}

# notes down what comes, where each shard that it names is there
note_batch() {
  local last=0 shard
  cat > "$all/new"
  while IFS= read -r shard; do
    [ -e "$root/$shard/policy.toml" ] || { rm -- "$all/new"; die "$shard: no such shard; nothing is noted down"; }
  done < <(awk '$1 ~ /^[a-z].*:$/ { print substr($1, 1, length($1) - 1) }' "$all/new")
  last=$(batches | tail -n 1)
  sync -- "$all/new"
  mv -- "$all/new" "$all/$(printf '%012d' $((10#${last:-0} + 1)))"
}

# Gives a shard the batches that it lacks, each as a file of its own. What it took and has not yet put away is given once more: there
# each line is refused as done (E3, E5, E9, E10) or does the same again.
give() {
  local to=$root/$1/commands.d at batch
  at=$(done_of "$1")
  mkdir -p -- "$to"
  for batch in $(batches); do
    if [[ $batch > $at ]] && ! [ -e "$to/at-$batch" ]; then
      { lines_of "$batch" "$1"; echo "person-add at-$batch mark.$batch"; } > "$to/.at-$batch"
      sync -- "$to/.at-$batch"
      mv -- "$to/.at-$batch" "$to/at-$batch"
      echo "$1: batch $batch"
    fi
  done
}

# The lines of a batch that a shard refused, each with what it said last, by its log, where a line has `--db FILE` after its first
# word. A line that was carried out once is not refused where it came again. Tokens are not shown.
refused_of() {
  local shard=$1 batch=$2 before
  printf -v before 'at-%012d' $((10#$batch - 1))
  [ -e "$all/$batch" ] || return 0
  lines_of "$batch" "$shard" | awk -v before="$before" -v shard="$shard" '
    NR == FNR { $1 = $1; if ($1 ~ /^[^#]/) said[$0] = "its log has nothing of it"; next }
    index($0, before " ") { begun = 1 }
    begun || before == "at-000000000000" {
      at = index($0, ": "); words = substr($0, 1, at - 1); told = substr($0, at + 2)
      sub(/^[^ ]+ /, "", words); sub(/ --db [^ ]+/, "", words)
      if (words in said && said[words] != "") said[words] = told ~ /^(archive|error): |^no such command$/ ? told : ""
    }
    END {
      for (words in said) if (said[words] != "") {
        shown = words
        if (shown ~ /^person-add /) { sub(/ [^ ]+$/, " ..", shown); sub(/^error: .*/, "usage error", said[words]) }
        if (said[words] == "no such command") sub(/ .*/, " ..", shown)
        print shard ": " shown ": " said[words]
      }
    }' - "$root/$shard/log" | sort
}

newest=$(batches | tail -n 1)
case ${2-} in
  '') note_batch ;;
  --again | --state | --refused) ;;
  *) die "$2: no such word; --help says which there are" ;;
esac
status=0
for folder in "$root"/*/policy.toml; do
  [ -e "$folder" ] || die "$root: no shard is there"
  shard=$(basename -- "$(dirname -- "$folder")")
  at=$(done_of "$shard")
  case ${2-} in
    --state)
      echo "$shard $at $(refused_of "$shard" "$at" | wc -l)"
      [ "$at" = "${newest:-000000000000}" ] || status=1
      ;;
    --refused)
      refused=$(refused_of "$shard" "$at")
      [ -z "$refused" ] || { printf '%s\n' "$refused"; status=1; }
      ;;
    *) give "$shard" ;;
  esac
done
exit "$status"
