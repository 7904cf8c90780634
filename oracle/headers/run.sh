#!/bin/sh
# Compares `headers::parse_macroblock_header`, and the calls of `macroblock` and `picture` whose header is in their bits, with the
# original, outside the gate:
#     oracle/headers/run.sh FOLDER_OF_THE_RUST_SOURCES [ROUNDS]
set -eu
. "$(dirname "$0")/../common/build.sh"
begin "$(dirname "$0")" "${1:-}"
offered picture
driven headers
"$work/headers" ${2:+"$2"}
