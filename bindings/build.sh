# What bindings/test.sh, bench/run.sh and soak/run.sh source. Needs rt and rustc, on x86-64, $top, the repository, and $work, a folder.

# The library, in target/ of the repository; the Rust crate over it, in $work; and in `with` the flag by which a program takes it.
bound() {
    "$top/bindings/archive.sh" >"$work/say" 2>&1 || { tail -n 40 "$work/say" >&2; exit 1; }
    archive=$top/target/staticlib
    library=$archive/libvaxembro.a
    rustc -O --edition 2021 -D warnings --crate-name vaxembro --crate-type rlib -L "$archive" -o "$work/libvaxembro.rlib" \
        "$top/bindings/rust/src/lib.rs"
    with="--extern vaxembro=$work/libvaxembro.rlib"
}
