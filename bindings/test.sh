#!/bin/sh
# Sees that the library can be installed and called from C, C++ and Rust, and that every listing of the README compiles, outside the gate:
#     bindings/test.sh
# Needs rt, cargo, a C and a C++ compiler, on x86-64. All but the library is built in a temporary folder. Its last line is `all passed`.
set -eu
here=$(cd "$(dirname "$0")" && pwd)
top=$(cd "$here/.." && pwd)
work=$(mktemp -d)
trap 'rm -rf "$work"' EXIT
. "$here/build.sh"
strict='-O2 -Wall -Wextra -Wpedantic -Werror'
worked='(bits 16), 128 128'
export RUSTFLAGS='-D warnings' RUSTDOCFLAGS='-D warnings' CARGO_TARGET_DIR="$work/cargo"
unset VAXEMBRO_LIB_DIR

fail() {
    printf 'FAILED: %s\n' "$*" >&2
    exit 1
}

# A command that is heard only if it fails.
quietly() {
    "$@" >"$work/say" 2>&1 || { tail -n 40 "$work/say" >&2; fail "$*"; }
}

# A command that must fail and say these words.
refused() {
    words=$1
    shift
    if "$@" >"$work/say" 2>&1; then fail "not refused: $*"; fi
    grep -q "$words" "$work/say" || { cat "$work/say" >&2; fail "refused without '$words': $*"; }
}

# What a program prints, beside what is due.
prints() {
    printf '%s\n' "$2" >"$work/due"
    "$1" >"$work/printed"
    diff "$work/due" "$work/printed"
}

# The files under a folder.
files() {
    (cd "$1" && find . ! -type d | LC_ALL=C sort)
}

# Into an empty folder by a relative name, again over what is there, and into a folder that is not there.
installed() {
    mkdir "$prefix"
    (cd "$work" && "$here/install.sh" prefix && "$here/install.sh" ./prefix/)
    "$here/install.sh" "$work/not/there/yet"
    printf './%s\n' include/vaxembro.h lib/libvaxembro.a lib/libvaxembro.so lib/libvaxembro.so.0.4 lib/pkgconfig/vaxembro.pc >"$work/due"
    for folder in "$prefix" "$work/not/there/yet"; do
        files "$folder" | diff "$work/due" -
        grep -qx "prefix=$folder" "$folder/lib/pkgconfig/vaxembro.pc" || fail "the prefix of $folder"
    done
    # the shared library offers what the header declares, and nothing else
    sed -n 's/^[a-z0-9_]* \(vaxembro_[a-z_]*\)(.*/\1/p' "$prefix/include/vaxembro.h" | LC_ALL=C sort >"$work/due"
    nm -D --defined-only "$prefix/lib/libvaxembro.so" | sed 's/.* //' | LC_ALL=C sort | diff "$work/due" -
}

# Where something is missing or in the way, nothing is left.
not_installed() {
    refused 'bindings/archive.sh' env VAXEMBRO_LIB_DIR="$work/nowhere" "$here/install.sh" "$work/none/of/it"
    refused 'cannot link' env CC=false "$here/install.sh" "$work/none/of/it"
    refused 'usage' "$here/install.sh"
    [ ! -e "$work/none" ] || fail 'a folder was left'
    mkdir "$work/blocked"
    : >"$work/blocked/include"
    refused 'cannot make the folder' "$here/install.sh" "$work/blocked"
    [ "$(cd "$work/blocked" && find .. -path '../blocked/*')" = ../blocked/include ] || fail 'something was left'
}

# The compiler's flags for the installed library, as pkg-config tells them.
flags() {
    if [ -n "$told" ]; then pkg-config "$@" --cflags --libs vaxembro; else echo "-I$prefix/include -L$prefix/lib -lvaxembro"; fi
}

# shellcheck disable=SC2046,SC2086
c() {
    for name in example test; do
        ${CC:-cc} -std=c99 $strict -Wconversion -static -o "$work/$name-static" "$here/c/$name.c" $(flags --static)
        ${CC:-cc} -std=c99 $strict -Wconversion -o "$work/$name-shared" "$here/c/$name.c" $(flags)
    done
    ${CXX:-c++} -std=c++11 $strict -o "$work/example-cpp" -x c++ "$here/c/example.c" -x none $(flags)
    readelf -d "$work/example-shared" | grep -q 'NEEDED.*\[libvaxembro\.so\.0\.4\]' || fail 'not linked to the shared library'
    prints "$work/example-static" "$worked"
    "$work/test-static"
    (
        export LD_LIBRARY_PATH="$prefix/lib"
        prints "$work/example-shared" "$worked"
        prints "$work/example-cpp" "$worked"
        "$work/test-shared"
    )
}

in_package() {
    (cd "$1" && shift && quietly cargo "$@" --offline)
}

# The package in the repository, where it finds the archive by itself.
rust() {
    in_package "$here/rust" test --locked
    sed -n '/ 0 passed/d; s/^test result: /Rust: /p' "$work/say"
    in_package "$here/rust" doc --locked
    in_package "$here/rust" build --locked --examples
    prints "$work/cargo/debug/examples/worked_case" "$worked"
    printf '(picture 1 1 8 2)\n(mb 8 0 intra 0 0 6DBF)\n' >"$work/forms"
    "$work/cargo/debug/examples/picture_tool" "$work/forms" "$work/worked" >"$work/say"
    # 16 by 16 samples of 128
    { printf 'P5\n16 16\n255\n'; head -c 256 /dev/zero | tr '\0' '\200'; } | cmp - "$work/worked-1.pgm"
}

# A program over the package, both outside the repository.
rust_elsewhere() {
    mkdir -p "$work/elsewhere/program/src"
    cp -r "$here/rust" "$work/elsewhere/vaxembro"
    cp "$here/rust/examples/worked_case.rs" "$work/elsewhere/program/src/main.rs"
    cd "$work/elsewhere/program"
    printf '[package]\nname = "program"\nedition = "2021"\n[dependencies]\nvaxembro = { path = "../vaxembro" }\n' >Cargo.toml
    quietly env VAXEMBRO_LIB_DIR="$prefix/lib" cargo build --offline
    prints "$work/cargo/debug/program" "$worked"
    refused 'bindings/archive.sh' env VAXEMBRO_LIB_DIR="$work/nowhere" cargo build --offline
    refused 'bindings/archive.sh' env PKG_CONFIG_PATH= PKG_CONFIG_LIBDIR="$work/nowhere" cargo build --offline
    [ -z "$told" ] || quietly cargo build --offline
    cd "$top"
}

# The README shows the example whole, from its first line of this form on.
shown() {
    sed -n "\\|^$2|,\$p" "$1" >"$work/due"
    sed -n "\\|^    $2|,/^    }\$/{s/^    //;p;}" "$top/README.md" >"$work/printed"
    diff "$work/due" "$work/printed"
}

# The Rattle listings of the README, each a module of a crate over copies of those below the library.
rattle() {
    below=$(sed -n 's/^vaxembro: *//p' "$top/crates.txt")
    tar -C "$top" --exclude out -cf - crates crates.txt | tar -C "$work" -xf -
    mkdir -p "$work/crates/listing/src"
    echo "listing: $below" >>"$work/crates.txt"
    cd "$work/crates/listing/src"
    echo '#![tactic(auto)]' >lib.rt
    awk '
        /^## / { on = $0 == "## How a service calls it" }
        on && /^    / && !within { within = 1; n++; print "mod listing" n ";" >>"lib.rt" }
        on && within && /^(    |$)/ { print substr($0, 5) >("listing" n ".rt") }
        /^[^ ]/ { within = 0 }
    ' "$top/README.md"
    [ "$(grep -c '^mod ' lib.rt)" -eq 3 ] || fail 'three listings in Rattle'
    cd "$work/crates/listing"
    quietly rt check
    sed -n 's/^logic=proved functions=\([0-9]*\) .*/Rattle: \1 functions proved/p' "$work/say" | tail -n 1
    cd "$top"
}

bound
prefix=$work/prefix
told=
if command -v pkg-config >"$work/say"; then
    told=yes
    export PKG_CONFIG_PATH="$prefix/lib/pkgconfig"
else
    echo 'pkg-config is not installed: what it tells is not tested'
fi
installed
not_installed
shown "$here/c/example.c" '#include <stdio.h>'
shown "$here/rust/examples/worked_case.rs" 'use vaxembro::'
c
rust
rust_elsewhere
rattle
echo 'all passed'
