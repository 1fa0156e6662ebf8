#!/usr/bin/env bash
# What publish.sh has done on the machine of a copy, where that is another machine: RUN=samples/scale/copy-there.sh. The file goes over
# by rsync, which sends of it what has changed, and then copy-here.sh does its part there.
#
#   copy-there.sh bring COPY COLOUR ADDRESS:PORT FROM
#   copy-there.sh begin COPY COLOUR ADDRESS:PORT DAY
#   copy-there.sh stop COPY COLOUR
#
# COPY is a name that ssh knows (`Host` in ~/.ssh/config, with its address, user and key; nobody is there to be asked for a password).
#
#   THERE=/opt/archive/samples/scale/copy-here.sh    that script on the other machine
#   COPIES, ARCHIVE, UNITS                           what that script is given there
#   BROUGHT=/srv/brought                             the folder there for what rsync brings, one below it for each colour
#
# Status 0 if it is done, 1 if it is not, 2 for a usage error, 255 if ssh does not reach the machine.
set -eu
case ${1-} in -h | --help) sed -n '2,/^[^#]/s/^# \{0,1\}//p' -- "$0"; exit ;; esac

[[ "${1-} $#" =~ ^(bring 5|begin 5|stop [345])$ ]] || { echo 'copy-there.sh: bring, begin or stop, and what it takes; --help says more' >&2; exit 2; }
brought=${BROUGHT:-/srv/brought}/$3
ssh=(ssh -o BatchMode=yes -o ConnectTimeout=5)

there() {
  printf -v told '%q ' env "COPIES=${COPIES:-/srv/copies}" "ARCHIVE=${ARCHIVE:-/opt/archive/crates/archive/out/archive}" "UNITS=${UNITS:-yes}" \
    "${THERE:-/opt/archive/samples/scale/copy-here.sh}" "$@"
  "${ssh[@]}" "$copy" "$told"
}

copy=$2
case $1 in
  bring)
    "${ssh[@]}" "$copy" "$(printf 'umask 077; mkdir -p -- %q' "$brought")"
    rsync -a --delete --no-whole-file -e "${ssh[*]}" -- "$5/" "$copy:$brought/"
    there bring "$copy" "$3" "$4" "$brought"
    ;;
  *) there "$@" ;;
esac
