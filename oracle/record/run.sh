#!/bin/sh
# Writes what `replay` reads, crates/replay/stdin, and what it must print, crates/replay/stdout, from the original alone:
#     oracle/record/run.sh FOLDER_OF_THE_RUST_SOURCES
# Needs rustc and no Rattle; each run writes the same. Says how many lines of each kind there are, and how they are answered.
set -eu
. "$(dirname "$0")/../common/build.sh"
begin "$(dirname "$0")" "${1:-}"
driven record
"$work/record" "$top/crates/replay"
