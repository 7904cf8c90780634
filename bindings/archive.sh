#!/bin/sh
# Makes the library, target/staticlib/libvaxembro.a of the repository, from the crate vaxembro_c:
#     bindings/archive.sh
# Needs rt, which proves what is not proved yet.
set -eu
top=$(cd "$(dirname "$0")/.." && pwd)
cd "$top/crates/vaxembro_c"
rt lib
mkdir -p "$top/target/staticlib"
cp out/libvaxembro_c.a "$top/target/staticlib/libvaxembro.a"
