# keep.sh: what its owner has to deal with.
# shellcheck shell=bash

# What `log` has of it. A token may stand in a line that is no command, and in a `person-add`: of these the beginning is shown.
look_at_log() {
  [ ! -f log ] || awk '
    /: archive: |: error: |too-large [1-9]|: it cannot be read, | says 503: | is full, and is not continued: / { show = 1 }
    /: no such command$/ { show = 1; $0 = $1 " " $2 " ..: no such command" }
    $2 == "person-add" { $0 = $1 " " $2 " .." (match($0, /: archive: [^:]*$/) ? substr($0, RSTART) : ": usage error") }
    show { print "log: " $0; show = 0 }' log
}

# the files that hold what was refused, or what nobody has taken for two hours
look_at_files() {
  local file
  [ ! -s commands.refused ] || echo "commands.refused: $(grep -c '^[^#]' commands.refused) to be corrected and given again, or removed"
  for file in mail.refused/*/*; do echo "$file: to be moved back into mail, or away"; done
  [ ! -s full ] || sed 's/^/full: /' full
  [ ! -e policy.refused ] || echo 'policy.toml: it is no policy, and the one before it counts'
  find commands commands.d commands.now mail -type f ! -name '.*' -cmin +120 -printf '%p: it has waited for two hours\n' 2> /dev/null
}

look() {
  local said
  said=$(look_at_log; look_at_files)
  [ -n "$said" ] || exit 0
  printf '%s\n' "$said"
  exit 1
}
