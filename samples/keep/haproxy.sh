#!/usr/bin/env bash
# Has HAProxy let go of the server that keep.sh is about to end, and come back to the next one.
#
#   DRAIN=samples/keep/haproxy.sh BACKEND=archive SERVER=keeper samples/keep.sh FOLDER PORT
#
# keep.sh calls it: `haproxy.sh drain PORT`, `haproxy.sh ready PORT`. SOCKET is HAProxy's own (/run/haproxy/admin.sock), `level admin`.
# To drain, the server's address gets a port on which nobody listens: new requests are refused there and asked again, and those under
# way come to their end, for a second and a half at most. It wants socat, and in the configuration (`retries` has to last for as long
# as the file is opened, at one a second; no check, which would find the server down and have requests refused):
#
#   backend archive
#     option redispatch 1
#     retries 60
#     retry-on conn-failure empty-response response-timeout
#     server keeper 127.0.0.1:8080 maxconn 1
set -u
case ${1-} in -h | --help) sed -n '2,/^[^#]/s/^# \{0,1\}//p' -- "$0"; exit ;; esac
what=${1:?drain or ready is to be given} port=${2:?the port is to be given}
name=${BACKEND:-archive}/${SERVER:-keeper}

tell() {
  socat -t 2 - "UNIX-CONNECT:${SOCKET:-/run/haproxy/admin.sock}" <<< "$1"
}

# (what HAProxy says where it takes an address ends with a dot, a word, or is about the address that it had)
point_to() {
  local said
  said=$(tell "set server $name addr 127.0.0.1 port $1") || exit 1
  case $said in
    *'changed from'* | *'no need to change'*) ;;
    *) echo "haproxy.sh: $said" >&2; exit 1 ;;
  esac
}

# a column of what HAProxy says of the server
column() {
  tell 'show stat' | awk -F, -v name="$name" -v at="$1" '$1 "/" $2 == name { print $at }'
}

# how many connections there are to the server
under_way() {
  column 5
}

# HAProxy serves its queue when a request ends. If the last request ended just before the next one was queued, as may happen while the
# server refuses connections, 2.6.12 leaves that one in the queue, and all that come. It serves the queue when `maxconn` is set, even to
# the same number.
serve_queue() {
  local most
  most=$(column 7)
  [ -z "$most" ] || tell "set maxconn server $name $most" > /dev/null
}

case $what in
  drain)
    point_to 1
    for ((at = 0; at < 30; at++)); do [ "$(under_way)" -gt 0 ] || break; sleep 0.05; done
    ;;
  ready)
    point_to "$port"
    serve_queue
    ;;
  *) echo "haproxy.sh: $what is no word of it" >&2; exit 2 ;;
esac
