#!/bin/sh
# Installs the archive from the files in this script's folder, as root, on a system with systemd or without:
#
#   sh install.sh [FOLDER]            into FOLDER, or / if none is given; into another one than / only files, no user and no unit
#   sh install.sh --remove [FOLDER]   takes them away again; the settings in etc, the archive and its backups stay
#
# It says what the system lacks before it changes anything, begins nothing, and has a server that runs go on with the new program. It
# removes what an older one installed and this one lacks.
set -eu
case ${1-} in -h | --help) sed -n '2,/^[^#]/s/^# \{0,1\}//p' -- "$0"; exit ;; esac
remove=
if [ "${1-}" = --remove ]; then remove=yes; shift; fi
to=${1:-/}
to=${to%/}
cd -- "$(dirname -- "$0")"

glibc=GLIBC # the oldest one that has all that the program asks for

# the version of the C library, nothing where it is another one
found_glibc() {
  { getconf GNU_LIBC_VERSION 2> /dev/null || true; } | sed -n 's/^glibc //p'
}

# what the system lacks, one on each line
lacking() {
  [ "$(uname -s) $(uname -m)" = 'Linux x86_64' ] || echo "Linux on x86-64 (this is $(uname -s) on $(uname -m))"
  has=$(found_glibc)
  [ "$(printf '%s\n' "$glibc" "${has:-0}" | sort -V | head -n 1)" = "$glibc" ] ||
    echo "the C library glibc $glibc or later (here it is ${has:-another one})"
  for it in bash install stat sha256sum; do command -v "$it" > /dev/null || echo "the program $it"; done
  [ -z "$to" ] || return 0
  for it in getent useradd sqlite3; do command -v "$it" > /dev/null || echo "the program $it"; done
  [ "$(id -u)" = 0 ] || echo "the rights of root"
}

# the files in the package's own folders that SUMS does not name
left_over() {
  (cd -- "${to:-/}" && find usr/libexec/luvazhimba usr/share/doc/luvazhimba usr/lib/systemd/system/luvazhimba* ! -type d 2> /dev/null) |
    while IFS= read -r it; do cut -c 67- SUMS | grep -qxF -- "$it" || printf '%s\n' "$it"; done
}

# removes them; a unit is stopped first
remove_left_over() {
  left_over | while IFS= read -r it; do
    case $to$it in usr/lib/systemd/system/*) [ ! -d /run/systemd/system ] || systemctl disable --now "${it##*/}" || true ;; esac
    rm -f -- "$to/$it"
  done
  find "$to/usr/libexec/luvazhimba" "$to/usr/share/doc/luvazhimba" -depth -type d -empty -delete
}

install_all() {
  sha256sum --quiet -c SUMS
  said=$(lacking)
  [ -z "$said" ] || { printf 'install.sh: nothing was changed, since this system lacks:\n%s\n' "$said" >&2; exit 1; }
  ./usr/bin/luvazhimba --version > /dev/null || { echo "install.sh: nothing was changed, since the program does not run here" >&2; exit 1; }
  cut -c 67- SUMS | while IFS= read -r it; do
    case $it in etc/*) [ ! -e "$to/$it" ] || continue ;; esac
    # (in one step, so that a process that runs the old file goes on with it)
    install -D -m "$(stat -c %a -- "$it")" -- "$it" "$to/$it.new"
    mv -- "$to/$it.new" "$to/$it"
  done
  remove_left_over
  [ -n "$to" ] || sh ./setup/postinst configure
  echo "installed: $("$to/usr/bin/luvazhimba" --version), from $PWD"
  command -v sqlite3 > /dev/null || echo "install.sh: backups want sqlite3, which is not here" >&2
}

remove_all() {
  [ -n "$to" ] || sh ./setup/prerm remove
  cut -c 67- SUMS | while IFS= read -r it; do
    case $it in etc/*) ;; *) rm -f -- "$to/$it" ;; esac
  done
  find "$to/usr/libexec/luvazhimba" "$to/usr/share/doc/luvazhimba" -depth -type d -empty -delete 2> /dev/null || true
  [ -n "$to" ] || sh ./setup/postrm remove
  echo "removed; the settings in $to/etc, and in $to/var the archive and its backups, stay"
}

if [ -n "$remove" ]; then remove_all; else install_all; fi
