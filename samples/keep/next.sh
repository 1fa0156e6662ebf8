# keep.sh: the next server, which opens the copy before the last one ends.
# shellcheck shell=bash

most_warming=10 # seconds in which the next server is asked for pages, before readers are

# asks a server for a path, and prints what it says
page() (
  exec {peer}<> "/dev/tcp/127.0.0.1/$1" || exit
  printf 'GET %s HTTP/1.0\r\n\r\n' "$2" >&"$peer"
  timeout "$most_warming" cat <&"$peer"
) 2> /dev/null

# asks a server for the first page of each list, as the public: the first request of a list reads all of it
warm() {
  local last=$((SECONDS + most_warming)) path
  while read -r path && ((SECONDS < last)); do page "$1" "$path" > /dev/null; done < <(page "$1" / | grep -o '/l/[a-z0-9-]*/threads')
}

# how many connections a server has that are not ended by it (`01` is ESTABLISHED)
under_way() {
  grep -ciE "^ *[0-9]+: 0100007F:$(printf %04X "$1") [0-9A-F:]+ 01 " /proc/net/tcp
}

# waits until a server has answered all that it was asked, two looks in a row, up to this second
await_end() {
  local looks=0
  while ((looks < 2 && SECONDS < $2)); do
    if [ "$(under_way "$1")" -eq 0 ]; then looks=$((looks + 1)); else looks=0; fi
    read -rt 0.05 -u "$never"
  done
}

end_leaving() {
  { kill "$leaving"; wait "$leaving"; } 2> /dev/null
  leaving=
}

# Begins the next server over the copy, has the proxy turn to it and ends the last one. Status 1, with the last one at work, if there is no
# other port, or the next one does not come to answer.
change_over() {
  [ -n "$second" ] && is_bare archive.db || return 1
  leaving=$server
  begin_on archive.next "$second"
  warm "$second"
  if is_there "$server" && port=$second tell_proxy ready; then
    local free=$port
    port=$second second=$free
    await_end "$free" $((SECONDS + longest))
    end_leaving
    count=$least
    return 0
  fi
  local next=$server
  server=$leaving leaving=$next
  end_leaving
  return 1
}
