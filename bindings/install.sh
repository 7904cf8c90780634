#!/bin/sh
# Puts the library in place under a folder, which is made if it is not there:
#     bindings/install.sh PREFIX
# lib/libvaxembro.a; lib/libvaxembro.so, a link to the shared library, which is linked here from the archive; include/vaxembro.h; and
# lib/pkgconfig/vaxembro.pc. The archive is that of bindings/archive.sh, or of the folder that VAXEMBRO_LIB_DIR names. Needs a C
# compiler, on x86-64. Where something fails it says so, ends with status 1 and leaves PREFIX as it was.
set -eu
here=$(cd "$(dirname "$0")" && pwd)
top=$(cd "$here/.." && pwd)

fail() {
    printf 'install.sh: %s\n' "$*" >&2
    exit 1
}

if [ $# -ne 1 ] || [ -z "$1" ]; then fail 'usage: bindings/install.sh PREFIX'; fi
case $1 in
/*) prefix=$1 ;;
*) prefix=$(pwd)/$1 ;;
esac
archive=${VAXEMBRO_LIB_DIR:-$top/target/staticlib}/libvaxembro.a
[ -f "$archive" ] || fail "there is no $archive: make it by bindings/archive.sh"
version=$(sed -n 's/^version = "\(.*\)"$/\1/p' "$here/rust/Cargo.toml")
[ -n "$version" ] || fail "no version in $here/rust/Cargo.toml"
shared=libvaxembro.so.${version%.*}
files="lib/libvaxembro.a lib/$shared lib/libvaxembro.so lib/pkgconfig/vaxembro.pc include/vaxembro.h"

# Until all files are in place, an end takes away what was put and the folders that were made.
made=
placed=
undo() {
    rm -rf "$work"
    [ -z "$placed" ] || return 0
    for file in $files; do rm -f "$prefix/$file.new"; done
    printf '%s' "$made" | while IFS= read -r one; do rmdir "$one"; done
}
work=$(mktemp -d)
trap undo EXIT
trap 'exit 1' HUP INT TERM

# A folder, with those above it.
folder() {
    [ ! -d "$1" ] || return 0
    folder "$(dirname "$1")"
    [ ! -d "$1" ] || return 0
    mkdir "$1" || fail "cannot make the folder $1"
    made="$1
$made"
}

# The whole archive, of which only the functions of the header are seen.
printf '{ global: vaxembro_*; local: *; };\n' >"$work/seen"
${CC:-cc} -shared -o "$work/$shared" -Wl,-soname,"$shared" -Wl,--version-script="$work/seen" -Wl,-z,defs -Wl,-z,text -Wl,-z,relro \
    -Wl,-z,now -Wl,--whole-archive "$archive" -Wl,--no-whole-archive || fail "cannot link $shared"
cp "$archive" "$here/c/vaxembro.h" "$work"
ln -s "$shared" "$work/libvaxembro.so"
chmod 644 "$work/libvaxembro.a" "$work/vaxembro.h"
chmod 755 "$work/$shared"

folder "$prefix"
prefix=$(cd "$prefix" && pwd)
cat >"$work/vaxembro.pc" <<END
prefix=$prefix
libdir=\${prefix}/lib
includedir=\${prefix}/include

Name: vaxembro
Description: The intra texture part of an MPEG-4 Visual decoder
Version: $version
Cflags: -I"\${includedir}"
Libs: -L"\${libdir}" -lvaxembro
END
chmod 644 "$work/vaxembro.pc"
for file in $files; do
    [ ! -d "$prefix/$file" ] || fail "$prefix/$file is a folder"
    folder "$(dirname "$prefix/$file")"
    cp -P "$work/${file##*/}" "$prefix/$file.new" || fail "cannot write $prefix/$file"
done
for file in $files; do mv -f "$prefix/$file.new" "$prefix/$file"; done
placed=yes
