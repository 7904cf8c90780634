#!/bin/sh
# Makes a great many mixed calls of the library in one process, outside the gate:
#     soak/run.sh [CALLS]
# The first difference stops it, with status 1. Needs rt and rustc, on x86-64. All but the library is built in a temporary folder.
set -eu
here=$(cd "$(dirname "$0")" && pwd)
top=$(cd "$here/.." && pwd)
work=$(mktemp -d)
trap 'rm -rf "$work"' EXIT
. "$top/bindings/build.sh"
bound
# shellcheck disable=SC2086
rustc -O --edition 2024 -D warnings $with -o "$work/soak" "$here/main.rs"
"$work/soak" ${1:+"$1"}
