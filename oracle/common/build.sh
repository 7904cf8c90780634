# What the run.sh of each comparison, and of record, sources. Needs rustc and, for a comparison, rt, on x86-64. Nothing is built in the
# repository: all is in a temporary folder, or in ORACLE_WORK, which is kept, so that rt proves no crate there a second time.

# The folder of a comparison, and that of the Rust sources.
begin() {
    here=$(cd "$1" && pwd)
    sources=$(cd "${2:?the folder of the Rust sources}" && pwd)
    common=$(cd "$here/../common" && pwd)
    top=$(cd "$here/../.." && pwd)
    if [ -n "${ORACLE_WORK:-}" ]; then
        mkdir -p "$ORACLE_WORK"
        work=$(cd "$ORACLE_WORK" && pwd)
    else
        work=$(mktemp -d)
        trap 'rm -rf "$work"' EXIT
    fi
}

# A command that is heard only if it fails.
quietly() {
    "$@" >"$work/say" 2>&1 || { tail -n 40 "$work/say" >&2; exit 1; }
}

# Rattle's side: lib.rt.txt, a crate of C functions over the named crate that needs no proof files, with the parts of common/ that it
# names, proved and made into a static library. What rt keeps in out/ stays in $work.
offered() {
    crate=$1_offered
    mkdir -p "$work/crates/$crate/src"
    find "$work/crates" -mindepth 2 -maxdepth 2 ! -name out -exec rm -rf {} +
    tar -C "$top" --exclude out -cf - crates | tar -C "$work" -xf -
    mkdir "$work/crates/$crate/src"
    cp "$here/lib.rt.txt" "$work/crates/$crate/src/lib.rt"
    for part in $(sed -n 's/^mod \(.*\);/\1/p' "$here/lib.rt.txt"); do
        cp "$common/$part.rt.txt" "$work/crates/$crate/src/$part.rt"
    done
    below=$(sed -n "s/^$1: *//p" "$top/crates.txt")
    { cat "$top/crates.txt"; echo "$crate staticlib: $below $1"; } >"$work/crates.txt"
    (cd "$work/crates/$crate" && quietly rt lib)
    library=$work/crates/$crate/out/lib$crate.a
}

# The driver (main.rs, or the file named) over that library, if there is one, and the original, as $work/NAME. The original's modules
# are as they are, but for the private function, which is made visible; what they lack is common/missing.rs. `more` names modules that
# stand in $work; `checks`, where it is set, stands for the flags that make the original stop at an overflow or an assertion; `with`
# holds more flags.
driven() {
    sed 's/^fn decode_intra_block_tail(/pub &/' "$sources/block.rs" >"$work/block.rs"
    {
        for module in bitreader idct inverse_quant macroblock predictor scan texture; do
            printf '#[path = "%s/%s.rs"]\nmod %s;\n' "$sources" "$module" "$module"
        done
        for module in block ${more:-}; do printf 'mod %s;\n' "$module"; done
        printf 'include!("%s/missing.rs");\n' "$common"
        printf '#[path = "%s/mod.rs"]\nmod common;\n' "$common"
        printf '#[path = "%s/%s"]\nmod driver;\nfn main() {\n    driver::main()\n}\n' "$here" "${2:-main.rs}"
    } >"$work/main.rs"
    # shellcheck disable=SC2086
    quietly rustc -O ${checks--C overflow-checks=on -C debug-assertions=on} --edition 2024 -A warnings ${with:-} -o "$work/$1" "$work/main.rs" ${library:+-C link-arg="$library"}
}
