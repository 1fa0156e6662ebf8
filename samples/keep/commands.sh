# keep.sh: the commands: which wait, what is carried out, and where it is put away.
# shellcheck shell=bash

# whether a command with this status and last line would come to the same if it were carried out again
is_settled() {
  case "$1 $2" in
    '0 '* | '2 '*) return 0 ;;
    '1 archive: E14 '* | '1 archive: E15 '* | '1 archive: M3 '* | '1 archive: F5 '*) return 1 ;;
    '1 archive: '[EFM][0-9]*) return 0 ;;
    *) return 1 ;;
  esac
}

# whether a command with this status and last line has done what it says, now or before
is_done() {
  case "$1 $2" in
    '0 '* | '1 archive: E3 '* | '1 archive: E5 '* | '1 archive: E9 '* | '1 archive: E10 '*) return 0 ;;
    *) return 1 ;;
  esac
}

# Runs a command, and writes it down in one line; `answer` is the last line of what it said, `reason` the first paragraph. If it settles
# nothing, the work ends, and standard error says why, without the words that may hold a token, because others read a journal.
run() {
  local said status told="$*"
  said=$("$archive" "$@" 2>&1 < /dev/null)
  status=$?
  answer=${said##*$'\n'}
  reason=${said%%$'\n\n'*}
  note "$*: $reason"
  [ "$1" != person-add ] || told="$1 $2 $3 .."
  is_settled "$status" "$answer" || { say "$told: $said"; exit 1; }
  return "$status"
}

# notes a line of commands that did nothing, with the reason above it; status 1
refuse() {
  printf '# %(%Y-%m-%dT%H:%M:%SZ)T %s\n%s\n' -1 "${2//$'\n'/ }" "$1" >> refused.now || exit 1
  return 1
}

# carries out one line of a file of commands on this database; status 1 if it did nothing (names, tokens, keys and days hold no spaces)
carry_out_line() {
  local db=$1 line=$2 words
  read -ra words <<< "$line"
  case ${words[0]-} in
    '' | '#'*) ;;
    list-add | merge | person-add | person-address | grant | revoke | withdraw | restore | embargo | lift)
      run "${words[0]}" --db "$db" "${words[@]:1}"
      is_done "$?" "$answer" || refuse "$line" "$reason"
      ;;
    *)
      note "$line: no such command"
      refuse "$line" 'no such command'
      ;;
  esac
}

# all commands that were taken, on this database: done.now gets the lines that did what they say, refused.now the others
carry_out() {
  local file text line
  { : > done.now && : > refused.now; } || exit 1
  for file in commands.now/*; do
    text=$(cat -- "$file") || exit 1
    while IFS= read -r line; do
      ! carry_out_line "$1" "$line" || printf '%s\n' "$line" >> done.now || exit 1
    done <<< "$text"
  done
}

# whether a file of commands can be taken; one that cannot stays, and the log names it once
can_be_taken() {
  if [ -f "$1" ] && { : < "$1"; } 2> /dev/null; then
    untaken[$1]=
    return
  fi
  [ -n "${untaken[$1]-}" ] || note "$(printf %q "$1"): it cannot be read, and stays"
  untaken[$1]=yes
  return 1
}

# the files of commands that wait: `waiting`, in the order in which they are to be carried out
find_commands() {
  local file
  waiting=()
  for file in commands commands.d/*; do
    if [ -e "$file" ] || [ -L "$file" ]; then
      ! can_be_taken "$file" || waiting+=("$file")
    fi
  done
}

# moves what waits into commands.now, by numbers that go on from those that are there
take_commands() {
  local file to number=0
  # (an older keep.sh had a file of this name)
  [ ! -f commands.now ] || { mv -- commands.now commands.was && mkdir commands.now && mv -- commands.was commands.now/000000; } || return
  find_commands
  [ "${#waiting[@]}" -eq 0 ] || mkdir -p commands.now || return
  for file in commands.now/*; do number=$((10#${file##*/})); done
  for file in "${waiting[@]}"; do
    printf -v to 'commands.now/%06d' $((number += 1))
    mv -T -- "$file" "$to" || return
  done
}

# commands.refused gets the lines that did nothing; a crash on the way may leave some twice
put_away_refused() {
  if [ -s refused.now ]; then
    cat -- refused.now >> commands.refused || return
    are_refused=yes
    say 'commands were refused: commands.refused has them, each below the reason'
  fi
  rm -f -- refused.now
}

# puts away what was carried out; commands.done gets all of it or nothing
put_away_commands() {
  local files=(commands.now/*)
  put_away_refused || return
  [ "${#files[@]}" -gt 0 ] || { rm -f -- done.now; return 0; }
  [ -e commands.done ] || : >> commands.done
  # (a last line that has no end gets one)
  sed -s '$a\' -- commands.done done.now > commands.put && mv -T -- commands.put commands.done && rm -r -- commands.now done.now
}
