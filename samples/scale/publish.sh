#!/usr/bin/env bash
# Brings what a shard's keeper serves to all copies of that shard, and changes all readers over to it at one instant.
#
#   samples/scale/publish.sh ROOT SHARDS FRONT SHARD [LIST/KEY ..]
#
# ROOT/SHARD is the keeper's folder (samples/keep.sh), with the file and policy.toml that copies are to serve; SHARDS is the file that
# front.py reads, FRONT the folder into which it wrote.
# Each LIST/KEY is a message that readers must be denied: a copy that does not say 403 of it is not asked by anybody.
#
#   DAY=2026-12-01     the day to serve: tomorrow's, a few minutes before midnight, with AT
#   AT=1796083200      the second (of 1970) at which readers are changed over: midnight
#   SOCKETS            HAProxy's sockets, more than one where there are several proxies (/run/haproxy/archive.sock)
#   RUN                what carries out its three steps on the machine of a copy (copy-here.sh in this script's folder; copy-there.sh)
#   PATIENCE=60        how many seconds such a step may take: a large file over a slow wire wants more
#   ASK=http://        how a copy is asked from here; with `https://`, ASK_WITH has a curl configuration with `cacert` and `cert`
#   ASK_AS=FILE        a file with a line `Authorization: Bearer TOKEN`: LIST/KEY is asked for as this reader, where the public reads
#                      nothing of the list anyway
#   LEAST=1            how many copies there have to be; with fewer nothing is changed, and the status is 1
#   STALE=no           `yes`: where there are fewer, readers get 503 and not what is out of date
#
# Each shard has two colours of servers. One is asked. The other is begun with the new file, on each copy's machine, and asked by
# this script: for the keeper's newest mark (everywhere.sh), and for each LIST/KEY. Then one line has the proxy ask
# the other colour. What it asked before goes on for as long as replies are under way, two minutes at most, and is stopped. The last
# lines say when:
#
#   changed 2026-11-27T03:41:07.123456Z      no request that comes later is answered by the old file
#   gone    2026-11-27T03:41:07.523456Z      no reply of the old file is under way any more
#
# Status 0 where both were said. 1 where one was not, with the reason on standard error: there are too few copies (policy.toml is no
# policy, a copy's machine is not reached); the keeper's newest mark is older than what readers have, as its folder is an old one; a
# proxy could not be told. Then the servers of before are ended all the same, so that such a proxy has nobody to ask and says 503.
# 2 for a usage error.
set -eu
case ${1-} in -h | --help) sed -n '2,/^[^#]/s/^# \{0,1\}//p' -- "$0"; exit ;; esac
umask 077 # the database holds tokens
export LC_ALL=C TZ=UTC

die() { echo "publish.sh: $2" >&2; exit "$1"; }

[ $# -ge 4 ] || die 2 'ROOT SHARDS FRONT SHARD are to be given; --help says more'
here=$(dirname -- "$(readlink -f -- "$0")")
shards=$2 shard=$4
keeper=$(readlink -f -- "$1")/$shard front=$(readlink -f -- "$3")
shift 4
keys=("$@")
for key in "${keys[@]}"; do [[ $key =~ ^[a-z][a-z0-9-]*/[0-9a-f]{64}$ ]] || die 2 "$key is no LIST/KEY"; done
sockets=${SOCKETS:-/run/haproxy/archive.sock}
run=${RUN:-$here/copy-here.sh}
patience=${PATIENCE:-60}
day=${DAY:-$(date +%F)}
quiet=31 # seconds after which no proxy of before a reload answers any more (`hard-stop-after` of front.py)

say() { printf '%s %s\n' "$1" "$(date +%Y-%m-%dT%H:%M:%S.%6NZ)"; }

# ---- the proxies

asked_of() { timeout 10 socat -t 10 - "UNIX-CONNECT:$1" <<< "$2" 2>&1; }

# tells every proxy something to which it says nothing; status 1 where one does not take it
tell() {
  local socket said status=0
  for socket in $sockets; do
    if said=$(asked_of "$socket" "$1"); then said=${said//$'\n'/}; else said="${said:-it does not answer}"; fi
    [ -z "$said" ] || { echo "publish.sh: $socket: $said" >&2; status=1; }
  done
  return "$status"
}

# whether every proxy has this value in this map
has() {
  local socket
  for socket in $sockets; do [[ $(asked_of "$socket" "get map $front/$1 $2") == *"value=\"$3\""* ]] || return 1; done
}

# waits until what a reload has left of every proxy is gone: it has a map of before
settle_proxies() {
  local socket up
  for socket in $sockets; do
    up=$(asked_of "$socket" 'show info' | sed -n 's/^Uptime_sec: //p') || true
    [ "${up:-$quiet}" -ge "$quiet" ] || sleep $((quiet - up))
  done
}

# whether every proxy that answers finds this number of servers of a colour good, by its own checks
are_up() {
  local socket said
  for socket in $sockets; do
    said=$(asked_of "$socket" 'show stat') || continue
    [ "$(awk -F, -v name="$1" '$1 == name && $18 == "UP" && $2 != "BACKEND" { sum++ } END { print sum + 0 }' <<< "$said")" -ge "$2" ] || return 1
  done
}

# how many requests are under way, or wait, at a colour: a sum over all proxies
under_way() {
  local socket
  for socket in $sockets; do asked_of "$socket" 'show stat' || true; done |
    awk -F, -v name="$1" '($1 == name || $1 == name "-long") && $2 == "BACKEND" { sum += $3 + $5 } END { print sum + 0 }'
}

# waits until nothing is under way at a colour, two looks in a row; status 1 where something still is
drain() {
  local at looks=0
  for ((at = 0; at < 1200; at++)); do
    if [ "$(under_way "$1")" -eq 0 ]; then looks=$((looks + 1)); else looks=0; fi
    [ "$looks" -lt 2 ] || return 0
    sleep 0.1
  done
  return 1
}

# ---- what a proxy reads at its beginning

# a file of FRONT gets what comes, whole, and is on the disk
put() {
  cat > "$front/$1.new"
  sync -- "$front/$1.new"
  mv -- "$front/$1.new" "$front/$1"
}

# one line of a map (others may be at work on other shards)
note_map() {
  flock 8
  sed "s/^$2 .*/$2 $3/" "$front/$1" | put "$1"
  flock -u 8
}

# which servers are left out, so that this stays so if HAProxy is restarted
note_states() {
  local said
  flock 8
  if said=$(asked_of "${sockets%% *}" 'show servers state'); then put servers.state <<< "$said"; fi
  flock -u 8
}

# ---- the copies

status_of() {
  curl -s -o /dev/null --noproxy '*' --max-time 20 ${ASK_WITH:+-K "$ASK_WITH"} -w '%{http_code}' "$@" || true
}

# whether the server at this address has the mark, and denies each message
is_good() {
  local to=${ASK:-http://}$1 key
  [ "$(status_of -H "Authorization: Bearer mark.$mark" "$to/")" = 200 ] || { echo "publish.sh: $1 lacks $mark" >&2; return 1; }
  for key in "${keys[@]}"; do
    [ "$(status_of ${ASK_AS:+-H "@$ASK_AS"} "$to/l/${key%/*}/m/${key#*/}")" = 403 ] || { echo "publish.sh: $1 shows $key" >&2; return 1; }
  done
}

# (what a step leaves running holds no lock of this script)
on_copy() { timeout "$patience" "$run" "$@" 8>&- 9>&- || { echo "publish.sh: $2: $1 of $3 is not done" >&2; return 1; }; }

# brings, begins and asks the server of one copy
make() {
  on_copy bring "$1" "$next" "$2" "$work/file" && on_copy begin "$1" "$next" "$2" "$day" && is_good "$2" && : > "$work/good.$1"
}

# the copies of the shard, each with the address of this colour
copies_of() {
  awk -v shard="$shard" -v at="$1" '{ sub(/#.*/, "") } $1 == shard { print $2, at == "a" ? $3 : $4 }' "$shards"
}

# makes the servers of the next colour, all at once, and says how many are good
make_all() {
  local copy to
  while read -r copy to; do make "$copy" "$to" < /dev/null & done < <(copies_of "${next##*-}")
  wait
  good=$(find "$work" -name 'good.*' | wc -l)
  say "asked $good of $(copies_of a | wc -l)"
}

# ends the servers of a colour; status 1 where one may still be there
stop_all() {
  local copy status=0
  for copy in "${copies[@]}"; do on_copy stop "$copy" "$1" || status=1; done
  return "$status"
}

# Has the proxies ask only those servers of the next colour that are good, and those by the mark all the time; and waits until they
# have asked them.
admit() {
  local copy at status=0
  tell "set map $front/marks.map $next mark.$mark" || status=1
  for copy in "${copies[@]}"; do
    if [ -e "$work/good.$copy" ]; then
      tell "set server $next/$copy state ready; set server $next/$copy health down" || status=1
    else
      echo "publish.sh: $copy is left out" >&2
      tell "set server $next/$copy state maint" || status=1
    fi
  done
  note_map marks.map "$next" "mark.$mark"
  note_states
  for ((at = 0; at < 100; at++)); do are_up "$next" "$good" && break; sleep 0.1; done
  are_up "$next" "${LEAST:-1}" || give_up 'a proxy does not reach as many copies as are wanted'
  note_states
  return "$status"
}

# nothing is changed, for this reason
give_up() {
  local copy
  stop_all "$next" || true
  if [ "${STALE:-no}" = yes ]; then
    for copy in "${copies[@]}"; do tell "set server $was/$copy state maint" || true; done
    note_states
    say 'nobody is asked'
  fi
  die 1 "$1"
}

change() {
  [ -z "${AT-}" ] || while [ "$(date +%s%3N)" -lt "${AT}000" ]; do sleep 0.01; done
  note_map live.map "$shard" "$next"
  tell "set map $front/live.map $shard $next" && has live.map "$shard" "$next"
}

# ----

exec 8> "$front/lock" 9> "$front/lock.$shard"
flock 9 # (another one of this shard goes first)
was=$(sed -n "s/^$shard //p" "$front/live.map")
case $was in
  "$shard-a") next=$shard-b ;;
  "$shard-b") next=$shard-a ;;
  '') die 2 "$shard is not in $front/live.map: front.py has not been told of it" ;;
  *) die 2 "$shard has no copies" ;;
esac
mapfile -t copies < <(copies_of a | sed 's/ .*//')
mark=$(sed -nE 's/^person-add at-([0-9]{12}) .*/\1/p' "$keeper/commands.done" 2> /dev/null | tail -n 1)
[ -n "$mark" ] || die 1 "$keeper has carried out no batch of everywhere.sh"
shown=$(sed -n "s/^$was mark\.//p" "$front/marks.map")
[[ ! $mark < $shown ]] || die 1 "$keeper has carried out batch $mark, and readers have $shown: it is an old one"

work=$(mktemp -d)
trap 'rm -rf -- "$work"' EXIT
mkdir -- "$work/file"
"$here/../copy.sh" "$keeper/archive.db" "$work/file/archive.db"
cp -- "$keeper/policy.toml" "$work/file/policy.toml"
say copied
make_all
[ "$good" -ge "${LEAST:-1}" ] || give_up "$good copies are good, and ${LEAST:-1} are wanted"
settle_proxies
told=yes drained=yes ended=yes
admit || told=no
change || told=no
[ "$told" = no ] || say changed
drain "$was" || drained=no
stop_all "$was" || ended=no
case $told$drained$ended in
  yesyesno) echo "publish.sh: what is left of $was is asked by no proxy" >&2 ;;
  yes*no) die 1 "of $was replies are under way, and its servers do not end" ;;
  # (a proxy that was not told has nobody of before to ask; but it may ask a copy that is left out)
  no*yes) [ "$good" -eq "${#copies[@]}" ] || die 1 'a proxy was not told whom to leave out' ;;
  no*no) die 1 "a proxy was not told, and servers of $was may be there" ;;
esac
say gone
[ "$told" = yes ]
