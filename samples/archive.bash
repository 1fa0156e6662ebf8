# shellcheck shell=bash
# Completion of the archive's words for bash: `. samples/archive.bash`.

# how many of the words so far stand in a place of their own: no option, and not the value of one
_archive_places() {
  local at
  places=0
  for ((at = 2; at < COMP_CWORD; at++)); do
    case ${COMP_WORDS[at]} in
      --db | --policy | --day | --min-age | --list | --standing | --person | --port | --count) at=$((at + 1)) ;;
      -*) ;;
      *) places=$((places + 1)) ;;
    esac
  done
}

# what may stand in the next place of a command
_archive_choices() {
  case "$1 $places" in
    'grant 2' | 'revoke 2') choices='member subscriber moderator' ;;
    'grant 3' | 'grant 4' | 'embargo 2') choices=$(date -u +%F) ;;
    'withdraw 2') choices='author board' ;;
    'merge 1') choices='yes no' ;;
    *) choices= ;;
  esac
}

_archive() {
  local word=${COMP_WORDS[COMP_CWORD]} before=${COMP_WORDS[COMP_CWORD-1]} command=${COMP_WORDS[1]} options='--db' choices places
  local words='sift list-add merge person-add person-address grant revoke import withdraw restore embargo lift get export check serve'
  if [ "$COMP_CWORD" -eq 1 ] || [ "$command" = help ]; then
    mapfile -t COMPREPLY < <(compgen -W "$words help --help --version" -- "$word")
    return
  fi
  case $before in
    --db | --policy) mapfile -t COMPREPLY < <(compgen -f -- "$word"); return ;;
    --standing) mapfile -t COMPREPLY < <(compgen -W 'public member subscriber moderator' -- "$word"); return ;;
    --day) mapfile -t COMPREPLY < <(compgen -W "$(date -u +%F)" -- "$word"); return ;;
    --min-age | --port | --count | --person | --list) return ;;
  esac
  case $command in
    sift) options='--day --min-age --policy --list --standing' ;;
    get | export) options='--db --policy --day --person' ;;
    serve) options='--db --policy --day --port --count' ;;
  esac
  _archive_places
  _archive_choices "$command"
  if [[ $word == -* ]]; then
    mapfile -t COMPREPLY < <(compgen -W "$options --help" -- "$word")
  elif [ "$command $places" = 'import 1' ]; then
    mapfile -t COMPREPLY < <(compgen -f -- "$word")
  elif [ -n "$choices" ]; then
    mapfile -t COMPREPLY < <(compgen -W "$choices" -- "$word")
  else
    mapfile -t COMPREPLY < <(compgen -W "$options --help" -- "$word")
  fi
}
complete -o filenames -F _archive archive ./archive
