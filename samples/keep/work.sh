# keep.sh: the work: commands and mail, on a copy of the file while it is served, or in the file.
# shellcheck shell=bash

# whether what was put off still waits
is_put_off() {
  ((SECONDS < later))
}

# Whether something is to be done now. Where mail was put off, commands that come do not wait for it.
has_work() {
  local left=(commands.now/* mail/*/*.mbox)
  if is_put_off; then
    [ -z "$are_stuck" ] || return
    left=()
  fi
  find_commands
  [ "${#waiting[@]}" -gt 0 ] || [ "${#left[@]}" -gt 0 ] || { ! is_put_off && [ -f commands.now ]; }
}

# what could not be done now waits, each time twice as long
put_off() {
  say "what is left is tried again in $delay seconds"
  later=$((SECONDS + delay))
  delay=$((delay < 1800 ? 2 * delay : 3600))
}

settled() {
  is_put_off || { delay=$again; later=0; }
}

# (`are_stuck` says of commands that were taken that they are not yet put away)
put_away() {
  put_away_commands && are_stuck= && put_away_mail
}

# in the file itself: what is done there is put away at once
work_in_file() {
  are_stuck=yes
  take_commands && (carry_out archive.db) && put_away_commands && are_stuck= && (take_in archive.db) && put_away_mail
}

work_or_put_off() {
  if work_in_file; then settled; else put_off; fi
}

drop_copy() {
  rm -f -- archive.next archive.next-wal 2> /dev/null
}

# Whether nothing waits in the file with `-wal`, to be read with this database. A command that closed the database leaves some bytes
# there; what waits is at least a page of 4,096 bytes, after 32 bytes of the file's and 24 of its own.
is_bare() {
  local size
  size=$(stat -c %s -- "$1-wal" 2> /dev/null) || return 0
  [ "$size" -lt $((32 + 24 + 4096)) ]
}

# A copy can take the place of the file if nothing of either waits.
work_beside() {
  drop_copy
  [ -e archive.db ] && is_bare archive.db && cp -- archive.db archive.next 2> /dev/null &&
    (carry_out archive.next && take_in archive.next) && is_bare archive.next && sync -- archive.next
}

# (in a group of its own, so that it can be stopped together with the command that it runs)
begin_work() {
  are_stuck=yes
  take_commands || { put_off; return; }
  set -m
  work_beside &
  worker=$!
  set +m
}

stop_work() {
  kill -- "-$worker" && wait "$worker"
} 2> /dev/null

# the copy takes the place of the file, once nobody has that open (the next server may have the copy open: it goes by its name of then)
take_copy() {
  is_bare archive.db && rm -f -- archive.db-wal archive.next-wal && mv -- archive.next archive.db && sync -- .
}

# what was done in the copy takes the file's place; if it could not be done, it is done in the file
end_work() {
  wait "$worker"
  local status=$?
  worker=
  if [ "$status" -ne 0 ] || ! change_over; then end_serving; fi
  if [ "$status" -eq 0 ] && take_copy; then
    if put_away; then settled; else put_off; fi
  else
    drop_copy
    work_or_put_off
  fi
}
