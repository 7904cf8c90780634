#!/bin/sh
# Compares `block::decode_intra_block_full` with the original, outside the gate:
#     oracle/block/run.sh FOLDER_OF_THE_RUST_SOURCES [SENTENCES]
set -eu
. "$(dirname "$0")/../common/build.sh"
begin "$(dirname "$0")" "${1:-}"
offered block
driven block
"$work/block" ${2:+"$2"}
