#!/bin/sh
# Compares the transform with the original on many blocks, all depths and both rules, outside the gate, and times both:
#     oracle/idct/wide.sh FOLDER_OF_THE_RUST_SOURCES [BLOCKS]
set -eu
. "$(dirname "$0")/../common/build.sh"
begin "$(dirname "$0")" "${1:-}"
offered idct
# as it would be used, for the times
checks=
driven idct wide.rs
"$work/idct" ${2:+"$2"}
