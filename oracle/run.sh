#!/bin/sh
# Runs all comparisons with the original one after the other, outside the gate:
#     oracle/run.sh FOLDER_OF_THE_RUST_SOURCES [SCALE]
# SCALE is in hundredths of what each does by itself. The first difference stops it, with status 1 and the smallest input found.
# Needs rt and rustc, on x86-64; each crate is proved once, in a temporary folder or in ORACLE_WORK, which is kept.
set -eu
here=$(cd "$(dirname "$0")" && pwd)
sources=$(cd "${1:?the folder of the Rust sources}" && pwd)
scale=${2:-100}
told=$(mktemp -d)
trap 'rm -rf "$told"' EXIT
ORACLE_WORK=${ORACLE_WORK:-$told/work}
export ORACLE_WORK

compare() {
    echo "== $1"
    start=$(date +%s)
    status=0
    "$here/$1" "$sources" $((($2 * scale + 99) / 100)) >"$told/one" || status=1
    cat "$told/one"
    echo "   $(($(date +%s) - start)) seconds"
    [ $status = 0 ] || exit 1
    cat "$told/one" >>"$told/all"
}

compare idct/wide.sh 1000000
compare coefficients/run.sh 2000000
compare texture/run.sh 200000
compare block/run.sh 300000
compare macroblock/run.sh 1000
compare picture/run.sh 1620
compare headers/run.sh 400
sed -n 's/^blocks compared: \([0-9]*\), decoded \([0-9]*\)$/\1 \2/p' "$told/all" |
    awk '{ compared += $1; decoded += $2 } END { printf "in all %d blocks compared (6 for each macroblock), %d of them decoded, no difference\n", compared, decoded }'
sed -n 's/^headers compared: \([0-9]*\), read \([0-9]*\)$/\1 \2/p' "$told/all" |
    awk '{ printf "and %d headers by themselves, %d of them read, no difference\n", $1, $2 }'
