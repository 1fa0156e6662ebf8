#!/usr/bin/env bash
# build.sh [FOLDER [ARCHIVE]]: makes in the folder (bindings/out) what callers link, and nothing else of the machine's.
#
#   libluvazhimba.a    for C and Rust, with what it needs of the toolchain
#   libluvazhimba.so   the same for Python, and for programs that load it
#   luvazhimba.h
#   luvazhimba.pc      for pkg-config
#
# The library is proved and built by the toolchain (rt), which builds nothing that is not proved; where it lies already, ARCHIVE
# names it, and no toolchain is needed but for the few lines that call malloc. It is compiled for every x86-64 processor. The section
# .luvazhimba.proof of both libraries says which text was proved, by what.
set -eu
case ${1-} in -h | --help) sed -n '2,/^[^#]/s/^# \{0,1\}//p' -- "$0"; exit ;; esac
here=$(dirname -- "$(readlink -f -- "${BASH_SOURCE[0]}")")
to=${1:-$here/out}
crate=$here/../crates/luvazhimba_c
archive=${2:-$crate/out/libluvazhimba_c.a}
for it in rt python3 cc ar objcopy; do
  command -v "$it" > /dev/null || { echo "build.sh: $it is not on the PATH (rt is the toolchain's command)" >&2; exit 2; }
done
toolchain='none: the library was not built here'
[ $# -gt 1 ] || { (cd -- "$crate" && rt lib --cpu=x86-64) && toolchain=$(rt version < /dev/null); }
heap=$(dirname -- "$(rt doc)")/c/liblibc_c.a
mkdir -p -- "$to"
work=$(mktemp -d)
trap 'rm -rf -- "$work"' EXIT

python3 "$here/../tools/identity.py" --library "$toolchain" > "$work/proof"
objcopy --add-section ".luvazhimba.proof=$work/proof" --set-section-flags .luvazhimba.proof=noload,readonly -- "$archive" "$work/proved.a"
rm -f -- "$to/libluvazhimba.a"
ar -M << END
create $to/libluvazhimba.a
addlib $work/proved.a
addlib $heap
save
end
END
# It exports its own calls only, and binds to itself. A program that was linked with it asks for it by its name.
echo '{ global: luv_*; local: *; };' > "$work/exports"
cc -shared -o "$to/libluvazhimba.so" -Wl,-soname,libluvazhimba.so -Wl,-z,now -Wl,--version-script="$work/exports" \
  -Wl,--whole-archive "$to/libluvazhimba.a" -Wl,--no-whole-archive
cp -- "$here/luvazhimba.h" "$to/"
cat > "$to/luvazhimba.pc" << 'END'
prefix=${pcfiledir}

Name: luvazhimba
END
sed -n -e 's/^description = "\(.*\)"/Description: \1/p' -e 's/^version = "\(.*\)"/Version: \1/p' -- "$here/python/pyproject.toml" >> "$to/luvazhimba.pc"
cat >> "$to/luvazhimba.pc" << 'END'
Cflags: -I${prefix}
Libs: -L${prefix} -lluvazhimba
END
