#!/usr/bin/env bash
# scale-wire.sh: samples/scale over a wire: two network namespaces as machines of copies, each with sshd, a server and an HAProxy with TLS.
#
#   trials/scale-wire.sh [--archive PROGRAM]
#
# publish.sh reaches them by copy-there.sh (ssh, rsync), and asks them over TLS with a certificate; the front asks them the same way.
# A wire is cut while readers ask and a mail is withdrawn, and comes back with what its machine served before. As root, for ip-netns.
# It wants ip, haproxy, socat, curl, rsync, ssh, sshd, openssl and sqlite3. The last line is 'N passed, N failed, N skipped'; the status
# is 0 where nothing failed, 2 for bad words.
set -u
case ${1-} in -h | --help) sed -n '2,/^[^#]/s/^# \{0,1\}//p' -- "$0"; exit ;; esac
umask 077
export LC_ALL=C.UTF-8 TZ=UTC
root=$(dirname -- "$(dirname -- "$(readlink -f -- "$0")")")
program=$root/crates/archive/out/archive
[ "${1-}" != --archive ] || { program=${2:?a program is to be given}; shift 2; }
[ $# -eq 0 ] || { echo 'scale-wire.sh: [--archive PROGRAM] are the words; --help says more' >&2; exit 2; }
program=$(readlink -f -- "$program")
scale=$root/samples/scale
passed=0 failed=0 skipped=0
here=$(mktemp -d)
pids=()
made=() # the namespaces

check() {
  if [ "$2" = "$3" ]; then
    passed=$((passed + 1))
    echo "ok     $1: $2"
  else
    failed=$((failed + 1))
    echo "FAILED $1: $2, where $3 was wanted"
  fi
}

end() {
  for it in "$here"/sshd.*.pid "$here"/copies/*/*/pid; do [ ! -e "$it" ] || kill -KILL "$(cat "$it")"; done
  [ "${#pids[@]}" -eq 0 ] || kill -KILL "${pids[@]}"
  wait
  for it in "${made[@]}"; do ip netns del "$it"; done
  rm -rf -- "$here"
} 2> /dev/null

finish() {
  end
  echo "$passed passed, $failed failed, $skipped skipped"
  [ "$failed" -eq 0 ] || exit 1
  exit 0
}

begin() {
  "$@" > /dev/null 2>> "$here/errors" &
  pids+=("$!")
}

# ---- certificates, machines, the front

certificate() {
  local it=$1 name=$2
  openssl req -newkey rsa:2048 -nodes -keyout "$it.key" -out "$it.csr" -subj "/CN=$it" 2> /dev/null
  openssl x509 -req -in "$it.csr" -CA ca.pem -CAkey ca.key -CAcreateserial -days 2 -extfile <(echo "subjectAltName=IP:$name") -out "$it.crt" 2> /dev/null
  cat "$it.crt" "$it.key" > "$it.pem"
}

listener() {
  cat << END
frontend $1
  bind $2:$3 ssl crt $here/$4.pem ca-file $here/ca.pem verify required
  default_backend $1
backend $1
  option http-server-close
  server own 127.0.0.1:$3
END
}

# a machine: its wire, its sshd, its HAProxy in front of both colours
machine() {
  local it=$1 net=10.184.$2
  ip netns add "scale-$it"
  made+=("scale-$it")
  ip link add "sc-$it" type veth peer name eth0 netns "scale-$it"
  ip addr add "$net.1/24" dev "sc-$it"
  ip link set "sc-$it" up
  ip -n "scale-$it" addr add "$net.2/24" dev eth0
  ip -n "scale-$it" link set eth0 up
  ip -n "scale-$it" link set lo up
  certificate "$it" "$net.2"
  ssh-keygen -q -t ed25519 -N '' -f "host.$it"
  printf '%s\n' "ListenAddress $net.2" "HostKey $here/host.$it" "PidFile $here/sshd.$it.pid" "AuthorizedKeysFile $here/id.pub" 'PermitRootLogin yes' 'StrictModes no' > "sshd.$it"
  ip netns exec "scale-$it" "$(command -v sshd)" -f "$here/sshd.$it"
  printf '%s\n' "Host $it" "  HostName $net.2" "  IdentityFile $here/id" '  StrictHostKeyChecking no' "  UserKnownHostsFile $here/known" '  LogLevel ERROR' >> ssh_config
  { printf 'defaults\n  mode http\n  timeout connect 2s\n  timeout client 60s\n  timeout server 120s\n'; listener a "$net.2" 18401 "$it"; listener b "$net.2" 18402 "$it"; } > "$it.cfg"
  begin ip netns exec "scale-$it" haproxy -f "$it.cfg"
  echo "ash $it $net.2:18401 $net.2:18402 seeds" >> shards
}

everywhere() {
  "$scale/everywhere.sh" archives > /dev/null
  "$root/samples/keep.sh" --once archives/ash
}

publish() { "$scale/publish.sh" archives shards front ash "$@" > said 2>&1; }
status_of() { curl -s -o /dev/null -m 60 -w '%{http_code}' "$@"; }
page_of() { echo "http://127.0.0.1:18405/l/seeds/m/$1"; }
did() { sed -n "s/^$1 .*/$1/p" said; }

# asks until a file is there, and notes what was no page
read_on() {
  local asked=0 other=0 said
  until [ -e "$here/enough" ]; do
    said=$(status_of "$1")
    asked=$((asked + 1))
    case " $2 " in *" $said "*) ;; *) other=$((other + 1)); echo "$said" >> "$here/other" ;; esac
  done
  echo "$other of $asked" > "$here/read"
}

# ----

for it in ip haproxy socat curl rsync ssh sshd openssl sqlite3; do
  command -v "$it" > /dev/null || { echo "skip   $it is not on this machine"; skipped=1; finish; }
done
if ! { [ "$(id -u)" -eq 0 ] && ip netns add scale-one && ip netns del scale-one; } 2> /dev/null; then
  echo 'skip   no namespaces are to be had here: they are for root, and for one run at a time'
  skipped=1
  finish
fi
trap 'failed=$((failed + 1)); finish' INT TERM
cd -- "$here" || exit 1
mkdir -p /run/sshd bin archives/ash/mail/seeds
ssh-keygen -q -t ed25519 -N '' -f id
printf '#!/bin/sh\nexec %s -F %s/ssh_config "$@"\n' "$(command -v ssh)" "$here" > bin/ssh
chmod +x bin/ssh
PATH=$here/bin:$PATH
openssl req -x509 -newkey rsa:2048 -nodes -keyout ca.key -out ca.pem -days 2 -subj /CN=scale 2> /dev/null
certificate front 127.0.0.1
machine one 1
machine two 2
printf 'cacert = "%s/ca.pem"\ncert = "%s/front.pem"\n' "$here" "$here" > ask
export ARCHIVE=$program COPIES=$here/copies BROUGHT=$here/brought THERE=$scale/copy-here.sh UNITS=no RUN=$scale/copy-there.sh
export SOCKETS=$here/proxy.sock ASK=https:// ASK_WITH=$here/ask DAY=2024-03-20 PATIENCE=60

cp "$root/samples/seeds.toml" archives/ash/policy.toml
cp "$root/samples/seeds.mbox" archives/ash/mail/seeds/one.mbox
echo 'ash: list-add seeds' | everywhere
"$scale/front.py" shards front --port 18405 --socket "$SOCKETS" --server "ssl verify required ca-file $here/ca.pem crt $here/front.pem"
begin haproxy -W -f front/haproxy.cfg
sleep 2
publish
check 'both machines are published over the wire' "$? $(did changed) $(did gone)" '0 changed gone'
[ "$failed" -eq 0 ] || cat said errors
check 'their page comes through the front' "$(status_of http://127.0.0.1:18405/l/seeds/threads)" 200
address=$(awk '$2 == "one" { print $4 }' shards)
check 'who has the certificate is answered' "$(status_of -K ask "https://$address/")" 200
check 'who has none is not' "$(status_of -k "https://$address/")" 000
check 'nor is who asks without TLS' "$(status_of "http://$address/")" 000
ip netns exec scale-one curl -s -o /dev/null "http://127.0.0.1:${address##*:}/"
check 'a server is there for its own machine' "$?" 0

read_on http://127.0.0.1:18405/l/seeds/threads 200 &
reader=$!
sleep 2
ip link set sc-one down
sleep 8
: > enough
wait "$reader"
check 'a wire is cut: requests that failed' "$(cut -d' ' -f1 read)" 0
echo "        ($(cat read) requests)"
rm enough

key=$(curl -s http://127.0.0.1:18405/l/seeds/threads | grep -oE '/m/[0-9a-f]{64}' | sed -n '7s,/m/,,p')
check 'a mail, before it is withdrawn' "$(status_of "$(page_of "$key")")" 200
read_on "$(page_of "$key")" '200 403' &
reader=$!
echo "ash: withdraw seeds $key author" | everywhere
begun=$SECONDS
publish "seeds/$key"
check 'a mail is withdrawn while the wire is cut: the other machine is asked alone' "$? $(did changed) $(did gone) $(grep -c 'one is left out' said)" '0 changed gone 1'
echo "        ($((SECONDS - begun)) s)"
: > enough
wait "$reader"
check 'requests for it that were answered otherwise' "$(cut -d' ' -f1 read)" 0
rm enough
check 'it is gone' "$(status_of "$(page_of "$key")")" 403
publish "seeds/$key"
check 'published again, to the colour that the machine beyond the wire still serves' "$? $(did changed) $(did gone)" '0 changed gone'

ip link set sc-one up
sleep 3
check 'the wire is back, and the machine shows the mail to whoever asks it' "$(status_of -K ask "https://$address/l/seeds/m/$key")" 200
for it in {1..40}; do status_of "$(page_of "$key")"; echo; done | sort | uniq -c | sed 's/^ *//' > shown
check 'readers are not led to it' "$(cat shown)" '40 403'
kill "${pids[-1]}"
sleep 1
begin haproxy -W -f front/haproxy.cfg
sleep 2
for it in {1..40}; do status_of "$(page_of "$key")"; echo; done | sort | uniq -c | sed 's/^ *//' > shown
check 'nor where the front is begun anew' "$(cat shown)" '40 403'
publish "seeds/$key"
check 'published once more, both are asked' "$? $(did changed) $(did gone) $(grep -c 'asked 2 of 2' said)" '0 changed gone 1'
check 'it stays gone, and what was left of before is ended' "$(status_of "$(page_of "$key")") $(status_of -K ask "https://$address/l/seeds/m/$key")" '403 503'
finish
