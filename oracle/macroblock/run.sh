#!/bin/sh
# Compares `macroblock::decode_intra_macroblock` with the original, outside the gate:
#     oracle/macroblock/run.sh FOLDER_OF_THE_RUST_SOURCES [ROUNDS]
set -eu
. "$(dirname "$0")/../common/build.sh"
begin "$(dirname "$0")" "${1:-}"
offered macroblock
driven macroblock
"$work/macroblock" ${2:+"$2"}
