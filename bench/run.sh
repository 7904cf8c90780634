#!/bin/sh
# Times the library beside the original, which is built without checks, and macroblocks with their headers in their bits beside the same
# ones without, outside the gate:
#     bench/run.sh FOLDER_OF_THE_RUST_SOURCES [ROUNDS [CLIP.in ..]]
# A clip is a file of the lines that `still` reads: a picture of depth 8 and its intra macroblocks. Where ffmpeg is installed and the
# stream that a clip was taken from lies beside it (CLIP.m4v), ffmpeg's time for that stream is told too.
# Needs rt and rustc, on x86-64. All but the library is built in a temporary folder.
set -eu
. "$(dirname "$0")/../oracle/common/build.sh"
begin "$(dirname "$0")/../oracle/picture" "${1:-}"
here=$(cd "$(dirname "$0")" && pwd)
. "$top/bindings/build.sh"
bound
checks=
driven bench
[ $# -eq 0 ] || shift
"$work/bench" "$@"

# How many pictures of a stream ffmpeg decoded, and in how many seconds of its own.
decoded() {
    ffmpeg -nostdin -hide_banner -benchmark -threads 1 -idct faani -i "$1" -f null - 2>&1 | tr '\r' '\n' |
        sed -n 's/^frame= *\([0-9]*\) .*/\1/p; s/^bench: utime=\([0-9.]*\)s.*/\1/p' | tail -n 2 | tr '\n' ' '
}

# Nanoseconds a macroblock, the least of five: the stream 200 times over less the stream once, so that its start is left out.
by_ffmpeg() {
    stream=${1%.in}.m4v
    if [ ! -f "$stream" ]; then return; fi
    copies=0
    : >"$work/often.m4v"
    while [ $copies -lt 200 ]; do
        cat "$stream" >>"$work/often.m4v"
        copies=$((copies + 1))
    done
    size=$(sed -n '1s/(picture \([0-9]*\) \([0-9]*\) .*/\1 \2/p' "$1")
    for _ in 1 2 3 4 5; do echo "$(decoded "$stream") $(decoded "$work/often.m4v") $size"; done |
        awk -v name="clip $(basename "$1" .in), by ffmpeg, all of it" '
            { took = ($4 - $2) * 1e9 / (($3 - $1) * $5 * $6); if (NR == 1 || took < least) least = took }
            END { printf "%-44s %8.0f\n", name, least }'
}

[ $# -eq 0 ] || shift
if command -v ffmpeg >"$work/say"; then
    for clip in "$@"; do by_ffmpeg "$clip"; done
fi
