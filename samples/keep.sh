#!/usr/bin/env bash
# Keeps an archive for years: serves it, and carries out the commands and takes in the mail that come meanwhile.
#
#   samples/keep.sh FOLDER [PORT]      serves on PORT (8080), until it is stopped
#   samples/keep.sh --once FOLDER      does what waits, and serves nothing
#   samples/keep.sh --look FOLDER      prints all that its owner has to deal with, a line each, and changes nothing
#
# FOLDER holds, with policy.toml there from the beginning (--once asks for none):
#   policy.toml        the policy; a change of it is taken at once, if it is a policy
#   archive.db         the database; the first command makes it
#   commands           commands, one a line, without `--db FILE`: `list-add soc`, `withdraw soc KEY author`
#   commands.d/NAME    the same, in as many files as there are writers; they are taken in the order of their names, after `commands`
#   mail/LIST/*.mbox   mboxes that are to be taken into LIST
#   continue           where there is such a file, a list that is full goes on as LIST-2, LIST-3 .. ("A full list", below)
#   commands.done, mail.done/LIST, mail.refused/LIST, log
#                      what became of them, and what each command said, in one line
#   commands.refused   the lines of commands that did nothing, each below the reason: no command, a usage error, or a refusal, but not
#                      one that says that it was done before (E3, E5, E9, E10). Correct the file, and submit it again as it is
#   full               what full lists refused: when, which list, how many messages of the mbox went in before, and where it lies
#   archive.next, commands.now, commands.put, done.now, refused.now, mail.now, mail.rest, mail.held, policy.served, policy.refused,
#   keep.lock          its own: the work under way, the policy that is served by, the last one that was none
#
# Only its owner can read what it makes. Tokens stay in archive.db, commands.done, commands.refused and log.
#
# A file comes whole and takes nobody's place: write it under a name that begins with a dot, and rename it to a name of its
# own (`mv` in commands.d and mail), or `ln` it to the name `commands`, which refuses where one waits. A file that is taken is moved
# away first, so that nothing is lost that comes meanwhile. One of commands that cannot be read stays, and the log names it.
#
# The database is locked while `serve` runs, which writes nothing. So work is done on a copy of the file, while the archive is
# served as it was; then the server ends, the copy takes the file's place, and the next server begins. Readers get no answer only
# while a file is opened: between two servers, which follow each other also where the connections of one are used up, where
# the policy changes, and where the day does (in UTC: a server keeps the day of its beginning). Where the copy cannot be made
# or worked on, as without room on the disk or without memory, the work is done in the file itself, and nobody is served meanwhile.
# Once a minute it asks its server for `/`: one that says 503 twice in a row, as where a fault of the disk shut its file, is ended,
# and another one begins.
#
# How a server ends. It has no word for that. So its last connections are used up, and no reply is cut short; but for 4 seconds at
# most: what is under way or waits then, as for a peer that reads slowly, breaks off. The folder is looked at each second, so a server
# is gone within 5 seconds of midnight, and of whatever else ends it.
#
# What COUNT costs. A server takes COUNT connections (1000; four times as many, up to 16 times, where readers use them up within a
# minute). With few the file is opened often at a high rate, and readers get no answer meanwhile. With many those that are left cannot
# be used up in 4 seconds (some 2,000 can, on a busy machine), and what is under way or waits breaks off at each change.
#
# Behind a proxy DRAIN names a program, as samples/keep/haproxy.sh: `DRAIN drain PORT` has the proxy let go of the server, which is
# then ended at once, and `DRAIN ready PORT` says that the next one answers. Then COUNT is 1000000, the most that `serve` takes.
#
# With DRAIN and SECOND=PORT, another port, readers wait less after commands and mail: at 500 requests a second the slowest reply took
# 0.43 s, and 1.56 s with one port. The next server opens the copy on the port that is free while the last one answers on the other, and
# is asked for the first page of each list, for 10 seconds at most. `DRAIN ready` then turns the proxy to it, and the last server ends
# once it has answered what it was asked, or after 4 seconds. Both files are in memory meanwhile. If the next server cannot begin, the
# work goes on as without SECOND.
#
# A full list. One of 50,000 messages refuses what is left of an mbox (E12): the mbox goes to mail.refused, and `full` has a line.
# Where the file `continue` is there, LIST-2 is added with the threading and the grants of LIST, and takes what is left, but for what
# LIST holds. A policy that names LIST has to name LIST-2 too, else it is refused all the same. It wants python3.
#
# After a crash begin again: a command that is carried out twice is refused the second time or changes nothing, and a message that
# is there is known. Where a command could do better another time (the disk is full, memory has run out), and where what was done
# cannot be put away, the rest stays where it lies, the archive is served as it is, and the work is tried again after a minute,
# then two, up to an hour; commands that come meanwhile are not held up by mail.
#
# --look prints what `log` has of refusals, of messages that were too large and of servers that answered 503, which files hold commands or
# mail that were refused, and what has waited for two hours. It shows no token. Remove or move away what you have dealt with: `log`
# too, of which the next command starts a new one. archive-look.service has systemd look each day, and fails if there is anything.
#
# Statuses: 0 stopped, or with --once all is settled, or with --look there is nothing; 1 `serve` is refused (the port is taken, the
# database is locked by another program or damaged, the program is not there), policy.toml is no policy at the beginning, another
# keep.sh has the folder, with --once a command was refused or something is left to be tried again, or with --look there is something;
# 2 a usage error. The reason is on standard error. Backups: samples/backup.sh.
set -u
shopt -s nullglob
case ${1-} in -h | --help) sed -n '2,/^[^#]/s/^# \{0,1\}//p' -- "$0"; exit ;; esac
umask 077 # the database holds tokens
export LC_ALL=C TZ=UTC
export ARCHIVE_PROVED=1 # no answer comes from a trial (docs/COMMANDS.md)

here=$(dirname -- "$(readlink -f -- "$0")")
archive=$(readlink -f -- "${ARCHIVE:-$here/../archive}")   # the program
drain=${DRAIN:+$(readlink -f -- "${DRAIN-}")}              # the program that tells the proxy
least=${COUNT:-$([ -n "$drain" ] && echo 1000000 || echo 1000)} # connections of a server; more where they are used up soon
pause=${PAUSE:-1}                                          # whole seconds between two looks at the folder
minute=${MINUTE:-60}                                       # seconds between two looks whether the server says 503
again=${AGAIN:-60}                                         # seconds until work that failed is tried again, at first

mode=keep
case ${1-} in --once | --look) mode=${1#--}; shift ;; esac
case "$mode $#" in
  'keep 1' | 'keep 2' | 'once 1' | 'look 1') ;;
  *) echo 'keep.sh: usage: FOLDER [PORT], --once FOLDER, or --look FOLDER; --help says more' >&2; exit 2 ;;
esac
port=${2:-8080}
second=${SECOND-} # the other port, on which the next server begins
[ -z "$second" ] || [ -n "$drain" ] || { echo 'keep.sh: SECOND wants DRAIN' >&2; exit 2; }
cd -- "$1" || exit 1

say() {
  printf 'keep.sh: %s\n' "$*" >&2
}

note() {
  printf '%(%Y-%m-%dT%H:%M:%SZ)T %s\n' -1 "${*//$'\n'/ }" >> log
}

is_there() {
  kill -0 "$1" 2> /dev/null
}

# shellcheck source=samples/keep/commands.sh
. "$here/keep/commands.sh"
# shellcheck source=samples/keep/mail.sh
. "$here/keep/mail.sh"
# shellcheck source=samples/keep/work.sh
. "$here/keep/work.sh"
# shellcheck source=samples/keep/server.sh
. "$here/keep/server.sh"
# shellcheck source=samples/keep/look.sh
. "$here/keep/look.sh"
# shellcheck source=samples/keep/next.sh
. "$here/keep/next.sh"

# whether another server is wanted
has_to_end() {
  has_another_day || { has_another_policy && take_policy; } || is_ill
}

# waits for the next look at the folder, or for the end of the server or of the work
rest() {
  local at
  for ((at = 0; at < 50 * pause; at++)); do
    is_there "$server" || return 0
    [ -z "$worker" ] || is_there "$worker" || return 0
    read -rt 0.02 -u "$never"
  done
}

# Serves, until something is to be done that wants another server, and does it.
serve() {
  [ -n "$server" ] || begin_serving
  while is_there "$server"; do
    if [ -n "$worker" ] && ! is_there "$worker"; then end_work; return; fi
    if [ -z "$worker" ] && has_work; then begin_work; fi
    if has_to_end; then end_serving; return; fi
    rest
  done
  was_used_up
}

# stopped, it stops the server too, which writes nothing: no more than the reply under way is lost
stop() {
  [ -z "$worker" ] || stop_work
  [ -z "$looker" ] || kill "$looker" 2> /dev/null
  for process in "$server" "$leaving"; do [ -z "$process" ] || { kill "$process"; wait "$process"; } 2> /dev/null; done
  exit 0
}

# does what waits, and says by its status whether all is settled
once() {
  while has_work; do work_in_file || exit 1; done
  case "$are_refused ${untaken[*]}" in *yes*) exit 1 ;; esac
  exit 0
}

keep() {
  take_policy || exit 1
  [ -z "$drain" ] || trap 'tell_proxy ready' EXIT
  work_or_put_off
  while :; do serve; done
}

server=
leaving= # the last server, while the next one takes its place
worker=
looker=
count=$least
later=0
delay=$again
are_stuck=
are_refused=
declare -A untaken=()
[ "$mode" != look ] || look
trap stop INT TERM HUP
exec {never}<> <(:) # nothing is ever written to it: to wait without a program
exec {lock}> keep.lock || exit 1
flock -n "$lock" || { say 'another one has this folder, or what it began still runs'; exit 1; }

drop_copy
"$mode"
