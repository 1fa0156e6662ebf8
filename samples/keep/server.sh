# keep.sh: the policy, and the server: how it begins, how it is looked at, and how it ends.
# shellcheck shell=bash

longest=4 # seconds in which a server that has to end comes to its end by itself

# ---- the policy

is_like() {
  [ -e "$2" ] && ! [ "$1" -nt "$2" ] && ! [ "$1" -ot "$2" ]
}

has_another_policy() {
  [ -e policy.toml ] && ! is_like policy.toml policy.served && ! is_like policy.toml policy.refused
}

# takes policy.toml to serve by, if it is one: what is served by is a copy, so that it is the text that was tried
take_policy() {
  local said
  cp --preserve=timestamps -- policy.toml policy.new || return 1
  if said=$("$archive" sift --policy policy.new 2>&1 < /dev/null); then
    mv -- policy.new policy.served && rm -f -- policy.refused
  else
    note "policy.toml: $said"
    say "policy.toml: $said"
    mv -- policy.new policy.refused
    return 1
  fi
}

# ---- the day

ask_today() {
  printf -v today '%(%F)T' -1
}

has_another_day() {
  ask_today
  [ "$today" != "$day" ]
}

# ---- the beginning

begin_serving() {
  begin_on archive.db "$port"
  [ -z "$drain" ] || tell_proxy ready
}

# begins a server of a file on a port; with DRAIN it waits until the server answers or has ended
begin_on() {
  ask_today
  day=$today
  begun=$SECONDS
  "$archive" serve --db "$1" --policy policy.served --day "$day" --port "$2" --count "$count" &
  server=$!
  looker=
  looked=$SECONDS
  times_ill=0
  [ -n "$drain" ] || return 0
  until [ -n "$(port=$2 ask_status)" ] || ! is_there "$server"; do read -rt 0.02 -u "$never"; done
}

# has the proxy let go of the server (`drain`), or come back to it (`ready`)
tell_proxy() {
  timeout 2 "$drain" "$1" "$port" < /dev/null >&2 || { say "$drain $1 $port: status $?"; return 1; }
}

# ---- a look at it

# the status of the reply to a request for `/`; nothing where none comes within ten seconds
ask_status() (
  exec {peer}<> "/dev/tcp/127.0.0.1/$port" || exit
  printf 'GET / HTTP/1.0\r\n\r\n' >&"$peer"
  read -rt 10 _ status _ <&"$peer"
  read -rt 10 -d '' _ <&"$peer"
  printf '%s' "$status"
) 2> /dev/null

says_503() {
  [ "$(ask_status)" = 503 ]
}

# whether the server said 503 at the last two looks: a process of its own asks, once a minute
is_ill() {
  if [ -n "$looker" ] && ! is_there "$looker"; then
    if wait "$looker"; then times_ill=$((times_ill + 1)); else times_ill=0; fi
    looker=
  fi
  if [ -z "$looker" ] && ((SECONDS - looked >= minute)); then
    looked=$SECONDS
    says_503 &
    looker=$!
  fi
  [ "$times_ill" -ge 2 ] || return 1
  note 'the server says 503: another one begins'
  say 'the server says 503: another one begins'
}

# ---- the end

# some requests at once, so that the server comes to its end soon also where readers ask for long pages; nobody reads the replies
ask() (
  to=()
  for ((at = 0; at < 32; at++)); do
    exec {peer}<> "/dev/tcp/127.0.0.1/$port" || break
    to+=("$peer")
    printf 'GET / HTTP/1.0\r\n\r\n' >&"$peer"
  done 2> /dev/null
  # (each is closed once its reply is there: the server waits a moment for what comes after a request)
  for peer in "${to[@]}"; do read -rd '' _ <&"$peer"; exec {peer}>&-; done 2> /dev/null
  [ "${#to[@]}" -gt 0 ]
)

ask_on() {
  while is_there "$server"; do ask || read -rt 0.02 -u "$never"; done
}

# takes the connections that are left itself, so that `serve` comes to its end, and no reader's reply is cut short; up to this second
use_up() {
  local last=$1 asker
  set -m
  ask_on &
  asker=$!
  set +m
  while is_there "$server" && ((SECONDS < last)); do read -rt 0.02 -u "$never"; done
  kill -- "-$asker"
  wait "$asker"
} 2> /dev/null

# Ends the server, whatever its peers do: by its process, once the proxy has let go of it or its connections were not used up in time.
end_serving() {
  local last=$((SECONDS + longest))
  { [ -n "$drain" ] && tell_proxy drain; } || use_up "$last"
  if is_there "$server"; then
    { kill "$server"; wait "$server"; } 2> /dev/null
  else
    wait "$server" || exit 1
  fi
  server=
  count=$least
}

# One that has ended: its connections are used up, or it was refused. Within a minute the next one gets more of them.
was_used_up() {
  wait "$server" || exit 1
  server=
  ((SECONDS - begun >= 60 || count >= 16 * least || 4 * count > 1000000)) || count=$((4 * count))
}
