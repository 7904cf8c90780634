#!/bin/sh
# Compares `picture` with a picture layer of its own over the original's block reading, outside the gate:
#     oracle/picture/run.sh FOLDER_OF_THE_RUST_SOURCES [PICTURES]
set -eu
. "$(dirname "$0")/../common/build.sh"
begin "$(dirname "$0")" "${1:-}"
offered picture
driven picture
"$work/picture" ${2:+"$2"}
