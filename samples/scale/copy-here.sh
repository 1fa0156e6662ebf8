#!/usr/bin/env bash
# What publish.sh has done on the machine of a copy. Here all copies are on this machine, in folders below COPIES; copy-there.sh has
# it done on another one.
#
#   copy-here.sh bring COPY COLOUR ADDRESS:PORT FROM     the file and the policy of this folder, whole
#   copy-here.sh begin COPY COLOUR ADDRESS:PORT DAY      a server, and waits until it answers on 127.0.0.1:PORT, and has been asked for
#                                                        the first page of each list, for 10 seconds at most
#   copy-here.sh stop COPY COLOUR                        its server, and waits until it is gone
#
#   COPIES=/srv/copies     the folder of the copies: each colour of a shard is COPIES/COPY/COLOUR; with UNITS, COPIES/COLOUR
#   ARCHIVE=archive        the program
#   UNITS=no               `yes`: a server is the unit archive-copy@COLOUR, which systemd restarts if it dies
#
# Status 0 if it is done, 1 if it is not, with the reason on standard error; 2 for a usage error.
set -eu
case ${1-} in -h | --help) sed -n '2,/^[^#]/s/^# \{0,1\}//p' -- "$0"; exit ;; esac
umask 077 # the database holds tokens

die() { echo "copy-here.sh: $2" >&2; exit "$1"; }

[[ "${1-} $#" =~ ^(bring 5|begin 5|stop [345])$ ]] || die 2 'bring, begin or stop, and what it takes; --help says more'
copies=${COPIES:?the folder of the copies is to be given}
archive=${ARCHIVE:?the program is to be given}
units=${UNITS:-no}
colour=$3
if [ "$units" = yes ]; then folder=$copies/$colour; else folder=$copies/$2/$colour; fi
port=${4-}
port=${port##*:}

is_there() {
  if [ "$units" = yes ]; then
    systemctl is-active --quiet "archive-copy@$colour"
  else
    # (a number of before the machine was restarted may be another program's now)
    [ -e "$folder/pid" ] && grep -qF -- "$folder/archive.db" "/proc/$(cat "$folder/pid")/cmdline" 2> /dev/null
  fi
}

# whether somebody takes connections on the port
is_taken() {
  (exec 3<> "/dev/tcp/127.0.0.1/$port") 2> /dev/null
}

stop() {
  if [ "$units" = yes ]; then systemctl stop "archive-copy@$colour"; return; fi
  if is_there; then kill "$(cat "$folder/pid")"; fi
  for ((at = 0; at < 40; at++)); do
    is_there || { rm -f -- "$folder/pid"; return 0; }
    sleep 0.05
  done
  # one that was stopped by a signal and not ended answers when it goes on: it must not
  kill -KILL "$(cat "$folder/pid")"
  sleep 0.2
  ! is_there || die 1 "the server of $folder does not end"
  rm -f -- "$folder/pid"
}

bring() {
  mkdir -p -- "$folder"
  rm -f -- "$folder"/archive.db*
  cp --reflink=auto -- "$1"/archive.db* "$1/policy.toml" "$folder/"
  cmp -s -- "$1/archive.db" "$folder/archive.db" || die 1 "$folder: the file is not the one that was brought"
  # (the unit's user reads it)
  if [ "$units" = yes ] && [ "$(id -u)" = 0 ]; then chown -R -- "$(systemctl show --property=User --value "archive-copy@$colour"):" "$folder"; fi
}

begin_server() {
  if [ "$units" = yes ]; then
    printf 'PORT=%s\nDAY=%s\n' "$port" "$1" > "$folder/env"
    systemctl start "archive-copy@$colour"
  else
    setsid "$archive" serve --db "$folder/archive.db" --policy "$folder/policy.toml" --day "$1" --port "$port" --count 1000000 \
      > /dev/null 2> "$folder/errors" < /dev/null &
    pid=$!
    echo "$pid" > "$folder/pid"
  fi
}

# whether what was begun has not ended (its process may not be the program yet)
goes_on() {
  if [ "$units" = yes ]; then is_there; else kill -0 "$pid" 2> /dev/null; fi
}

# asks the server for a path, and prints what it says; the seconds that it may take
page() {
  curl -fs --noproxy '*' --max-time "${2:-20}" "http://127.0.0.1:$port$1"
}

# asks for the first page of each list, as the public, before readers do: the first request of a list reads all of it
warm() {
  local last=$((SECONDS + 10)) path
  while read -r path && ((SECONDS < last)); do page "$path" 10 > /dev/null || true; done < <(page / | grep -o '/l/[a-z0-9-]*/threads')
}

begin() {
  # (another server on the port would answer in its place)
  ! is_taken || die 1 "somebody else answers on port $port"
  begin_server "$1"
  while goes_on; do
    if page / > /dev/null; then warm; return 0; fi
    sleep 0.1
  done
  die 1 "the server of $folder ended: $(tail -n 1 "$folder/errors" 2> /dev/null)"
}

case $1 in
  bring)
    stop
    bring "$5"
    ;;
  begin) begin "$5" ;;
  stop) stop ;;
esac
