#!/usr/bin/env bash
# Makes packages of the built program, which install it without the toolchain: one for Debian 12 and later, and files with install.sh
# for other systems with glibc on x86-64.
#
#   tools/package.sh [--twice | --program FILE] [FOLDER]     FOLDER is for what is made, crates/archive/out/package where none is given
#
# It makes luvazhimba_VERSION_amd64.deb, luvazhimba-VERSION-linux-x86_64.tar.gz, luvazhimba-VERSION.proof (which text was proved, by
# what; it is also in the program, as its section .luvazhimba.proof) and SHA256SUMS. The program is built first where it is not as the
# sources are. With --twice it is compiled once more first, in another folder and in minutes, and the identity says whether that gave
# the same bytes. FILE is another program, of which nothing is said to be proved: to try how packages are made.
#
# The same program and the same commit give the same bytes, in whatever folder and at whatever time.
set -euo pipefail
case ${1-} in -h | --help) sed -n '2,/^[^#]/s/^# \{0,1\}//p' -- "$0"; exit ;; esac
export LC_ALL=C TZ=UTC

tools=$(dirname -- "$(readlink -f -- "$0")")
root=$(dirname -- "$tools")
built=$root/crates/archive/out
maintainer=${MAINTAINER:-Luvazhimba maintainers <luvazhimba@lists.example.org>}
owners=usr/share/doc/luvazhimba
section=.luvazhimba.proof

fail() {
  echo "package: $*" >&2
  exit 1
}

need() {
  for it in "$@"; do command -v "$it" > /dev/null || fail "$it is not on the PATH (Debian: git python3 binutils dpkg-dev gzip tar)"; done
}

# ---- which program this is

# the line of the proof's identity with this name
line_of() {
  sed -n "s/^$1: //p" -- "$work/proof"
}

digest_of() {
  sha256sum < "$1" | cut -d ' ' -f 1
}

# the proof's identity, of the program that the front door has built, or of another one
identify() {
  local toolchain='none: the program was not built here' stamp=$built/built-by-the-front-door
  if [ -n "$program" ]; then
    said=$("$program" --version)
  else
    program=$built/archive
    said=$("$root/archive" --version)
    [ -e "$stamp" ] || fail "nothing says what $program was built from: remove it, and ./archive --version builds it"
    toolchain=$(head -n 1 -- "$stamp")
    [ -z "$twice" ] || python3 "$tools/twice.py" >&2 || fail "the program was not compiled again"
  fi
  python3 "$tools/identity.py" "$toolchain" > "$work/proof"
  [[ $(line_of program) == "$said, tables "* ]] || fail "$program says '$said', and the sources '$(line_of program)'"
  echo "built: sha256 $(digest_of "$program"), build id $(readelf -n -- "$program" | sed -n 's/.*Build ID: //p')" >> "$work/proof"
  echo "compiled: $(compiled)" >> "$work/proof"
}

# whether the same bytes were compiled in another folder (tools/twice.py writes down what it found of a program)
compiled() {
  local found=$built/compiled-twice
  if [ -e "$found" ] && [ "$(head -n 1 -- "$found")" = "$(digest_of "$program")" ]; then tail -n +2 -- "$found"; else echo once; fi
}

# the version of the packages: of the program, and of the commit by its time, so that later ones are newer
version_of() {
  echo "${said#archive }+git$(date -u -d "@$SOURCE_DATE_EPOCH" +%Y%m%d.%H%M%S).$(line_of commit | cut -c 1-7)$([ "$(line_of changed)" = nothing ] || echo .changed)"
}

# ---- the files

# takes a file, or standard input, to its place
put() {
  install -D -m "${3:-644}" -- "$1" "$top/$2"
}

put_text() {
  cat > "$work/text"
  put "$work/text" "$@"
}

put_zipped() {
  gzip -9n | put_text "$@"
}

put_program() {
  put "$program" usr/bin/luvazhimba 755
  strip --strip-all --remove-section=.comment -- "$top/usr/bin/luvazhimba"
  objcopy --add-section "$section=$work/proof" --set-section-flags "$section=noload,readonly" -- "$top/usr/bin/luvazhimba"
  echo "installed: sha256 $(digest_of "$top/usr/bin/luvazhimba")" >> "$work/proof"
  put "$work/proof" "$owners/PROOF"
}

# the samples' scripts, which call the program and units by the names that they have there, and name the pages where they lie
put_scripts() {
  git -C "$root/samples" ls-files -- '*.sh' '*.py' > "$work/list"
  while read -r it; do
    # shellcheck disable=SC2016
    sed -E -e 's|\$\{ARCHIVE:-[^}]*\}|${ARCHIVE:-/usr/bin/luvazhimba}|' -e 's|([ (=])samples/|\1/usr/libexec/luvazhimba/|g' \
      -e 's|/opt/archive/samples/|/usr/libexec/luvazhimba/|g; s|\bdocs/([A-Z-]+\.md)|/usr/share/doc/luvazhimba/\1|g' \
      -e 's#\barchive(-copy@|-look\.service)#luvazhimba\1#g' -- "$root/samples/$it" |
      put_text "usr/libexec/luvazhimba/$it" "$([ -x "$root/samples/$it" ] && echo 755 || echo 644)"
  done < "$work/list"
  ! grep -rE '/\.\./archive|/opt/archive|\barchive(-[a-z]+)?@' -- "$top/usr/libexec/luvazhimba" || fail "a script has a place or a unit of a clone"
  sed -e 's/^complete .*/complete -o filenames -F _archive luvazhimba/' -e '/^# Completion/s/: .*/./' -- "$root/samples/archive.bash" |
    put_text usr/share/bash-completion/completions/luvazhimba
}

# a unit, with the places of the package
unit() {
  sed -E -e 's|^((User\|Group)=)archive$|\1luvazhimba|' -e 's|\barchive(-[a-z]+)?(@[a-z%]*)?\.(service\|timer\|path)|luvazhimba\1\2.\3|g' \
    -e 's|/opt/archive/samples/|/usr/libexec/luvazhimba/|; s|/opt/archive/crates/archive/out/archive|/usr/bin/luvazhimba|' \
    -e 's|/opt/archive/docs/|/usr/share/doc/luvazhimba/|; s#/srv/archive(/|$| )#/var/lib/luvazhimba\1#g' \
    -e 's|/var/backups/archive|/var/backups/luvazhimba|g; s|/etc/default/archive|/etc/default/luvazhimba|' -- "$1"
}

# the samples' units; those for many machines are examples
put_units() {
  for it in "$root"/samples/archive*.service "$root"/samples/archive*.timer "$root"/samples/archive*.path; do
    unit "$it" | sed -E '1,/^\[Unit\]/ { /^#/d }' | put_text "usr/lib/systemd/system/luvazhimba${it##*/archive}"
  done
  ! grep -E '/opt/|/srv/|=archive$' -- "$top"/usr/lib/systemd/system/* || fail "a unit has a place of a clone"
  for it in "$root"/samples/scale/archive*; do unit "$it" | put_text "$owners/examples/scale/luvazhimba${it##*/archive}"; done
}

# the search: its unit's own folder and page, and its settings
put_search() {
  sed -i -E -e 's#(StateDirectory=|/var/lib/)archive-search#\1luvazhimba-search#' \
    -e 's#/usr/libexec/luvazhimba/search/README#/usr/share/doc/luvazhimba/examples/search/README#' -- "$top/usr/lib/systemd/system/luvazhimba-search.service"
  put "$tools/package/default-search" etc/default/luvazhimba-search
}

put_pages() {
  python3 "$tools/owner_page.py" --list > "$work/list"
  while read -r page place; do python3 "$tools/owner_page.py" "$page" | put_text "$owners/$place"; done < "$work/list"
  git -C "$root/samples" ls-files -- '*.mbox' '*.toml' '*/*' ':!*/README.md' ':!*.sh' ':!*.py' ':!scale/archive*' > "$work/list"
  while read -r it; do put "$root/samples/$it" "$owners/examples/$it"; done < "$work/list"
  sed -e "s|samples/mbsyncrc|/$owners/examples/mbsyncrc|; s|samples/|/usr/libexec/luvazhimba/|g" -- "$root/samples/mbsyncrc" | put_text "$owners/examples/mbsyncrc"
  sed -E -e 's/\\fBarchive( |\\)/\\fBluvazhimba\1/g' -e 's/^archive (\\-|[a-z])/luvazhimba \1/' -e 's/^\.TH ARCHIVE/.TH LUVAZHIMBA/; s/"archive ([0-9.]+)"/"luvazhimba \1"/' \
    -e 's|docs/([A-Z]+\.md)|\1|g; s| in the repository; \\fBsamples/keep.sh\\fR there| in /usr/share/doc/luvazhimba; \\fB/usr/libexec/luvazhimba/keep.sh\\fR|' \
    -e '/^\.SH DESCRIPTION/i .SH NAMES\nThe program calls itself \\fBarchive\\fR in its help and in its messages.' -- "$root/docs/archive.1" |
    put_zipped usr/share/man/man1/luvazhimba.1.gz
  put_zipped "$owners/changelog.gz" < "$root/CHANGELOG.md"
  put "$tools/package/copyright" "$owners/copyright"
}

put_settings() {
  put "$tools/package/policy.toml" etc/luvazhimba/policy.toml
  put "$tools/package/default" etc/default/luvazhimba
}

# gives all of it the time of the commit
date_all() {
  find "$top" -type d -exec chmod 755 {} +
  find "$top" -exec touch -h -d "@$SOURCE_DATE_EPOCH" {} +
}

# ---- for Debian

put_control() {
  mkdir -p -- "$top/DEBIAN"
  cat > "$top/DEBIAN/control" << CONTROL
Package: luvazhimba
Version: $version-1
Architecture: amd64
Maintainer: $maintainer
Installed-Size: $(du -k -s --apparent-size --exclude=DEBIAN -- "$top" | cut -f 1)
Depends: libc6 (>= $glibc), passwd, init-system-helpers (>= 1.54), sqlite3
Suggests: nginx-light | nginx, curl, python3
Section: mail
Priority: optional
Description: mailing list archive whose replies are proved
 Keeps the mail of lists for years in one file, and shows each reader what
 a written policy lets them see on that day: threads (RFC 5256), months,
 authors and messages over HTTP on loopback, and mboxes (RFC 4155).
 .
 It is written in Rattle, in which each function is proved to meet its
 contract. /usr/share/doc/luvazhimba/PROOF says which text was proved, and
 by which toolchain.
CONTROL
  (cd -- "$top" && find etc -type f -printf '/%p\n' | sort) > "$top/DEBIAN/conffiles"
  for it in postinst prerm postrm; do put "$tools/package/$it" "DEBIAN/$it" 755; done
  (cd -- "$top" && find etc usr -type f | sort | xargs -d '\n' md5sum) > "$top/DEBIAN/md5sums"
}

make_debian() {
  printf 'luvazhimba (%s-1) unstable; urgency=medium\n\n  * Of commit %s.\n\n -- %s  %s\n' "$version" "$(line_of commit)" "$maintainer" "$(date -u -R -d "@$SOURCE_DATE_EPOCH")" |
    put_zipped "$owners/changelog.Debian.gz"
  put_text usr/share/lintian/overrides/luvazhimba <<< 'luvazhimba: initial-upload-closes-no-bugs'
  put_control
  date_all
  dpkg-deb --root-owner-group -Zxz --build -- "$top" "$to/$debian" > /dev/null
  rm -r -- "$top/DEBIAN" "$top/usr/share/lintian" "$top/$owners/changelog.Debian.gz"
}

# ---- for other systems

make_files() {
  for it in postinst prerm postrm; do put "$tools/package/$it" "setup/$it" 755; done
  sed "s/^glibc=GLIBC /glibc=$glibc /" -- "$tools/package/install.sh" | put_text install.sh 755
  (cd -- "$top" && find etc usr -type f | sort | xargs -d '\n' sha256sum) | put_text SUMS
  date_all
  tar -C "$work" --transform "s,^top,${files%.tar.gz}," --sort=name --owner=0 --group=0 --numeric-owner -cf - top | gzip -9n > "$to/$files"
}

# ---- all of it

# takes the words: which program, and where to
read_words() {
  program=''
  twice=''
  case ${1-} in
    --twice) twice=yes; shift ;;
    --program)
      program=$(readlink -f -- "${2:?the program is to be given}")
      [ -x "$program" ] || fail "$program is no program"
      shift 2 ;;
    -*) fail "no such option: $1 (--help)" ;;
  esac
  [ $# -le 1 ] || fail "one folder at most is to be given (--help)"
  mkdir -p -- "${1:-$built/package}"
  to=$(readlink -f -- "${1:-$built/package}")
}

main() {
  read_words "$@"
  need git python3 dpkg-deb strip objcopy objdump readelf gzip tar
  SOURCE_DATE_EPOCH=$(git -C "$root" log -1 --format=%ct 2> /dev/null) || fail "$root is no clone, so no commit can be named"
  export SOURCE_DATE_EPOCH
  work=$(mktemp -d)
  trap 'rm -rf -- "$work"' EXIT
  top=$work/top

  identify
  version=$(version_of)
  debian=luvazhimba_$version-1_amd64.deb
  files=luvazhimba-$version-linux-x86_64.tar.gz
  proof=luvazhimba-$version.proof
  put_program
  # (the C library that has all that the program asks for)
  glibc=$(objdump -T -- "$top/usr/bin/luvazhimba" | grep -o 'GLIBC_[0-9.]*' | sort -Vu | tail -n 1 | cut -c 7-)
  put_scripts
  put_units
  put_pages
  put_search
  put_settings
  make_debian
  make_files
  cp -- "$work/proof" "$to/$proof"
  (cd -- "$to" && sha256sum -- "$debian" "$files" "$proof" > SHA256SUMS)
  cat -- "$work/proof" "$to/SHA256SUMS"
}

main "$@"
exit
