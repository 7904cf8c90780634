#!/bin/sh
# Compares every public function of `texture` with the original, outside the gate:
#     oracle/texture/run.sh FOLDER_OF_THE_RUST_SOURCES [LISTS]
set -eu
. "$(dirname "$0")/../common/build.sh"
begin "$(dirname "$0")" "${1:-}"
offered texture
driven texture
"$work/texture" ${2:+"$2"}
