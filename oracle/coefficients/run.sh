#!/bin/sh
# Compares every public function of `coefficients` and `inverse_quant` with the original, outside the gate:
#     oracle/coefficients/run.sh FOLDER_OF_THE_RUST_SOURCES [RANDOM_CASES_A_FUNCTION]
set -eu
. "$(dirname "$0")/../common/build.sh"
begin "$(dirname "$0")" "${1:-}"
offered inverse_quant
# block.rs's own lines from places to levels, which stand inside its reading of a block
{
    printf 'use crate::block::BlockPredictors;\nuse crate::predictor::*;\nuse crate::scan::{inverse_scan, select_scan_type};\nuse crate::texture::DcComponent;\n'
    printf 'pub struct Header {\n    pub quantiser_scale: u32,\n    pub ac_pred_flag: bool,\n    pub alternate_vertical_scan: bool,\n}\n'
    printf 'pub fn levels(qfs: [i32; 64], component: DcComponent, ctx: Header, predictors: BlockPredictors) -> [[i32; 8]; 8] {\n'
    sed -n '/^fn decode_intra_block_tail(/,/^}/p' "$sources/block.rs" | sed -n '/let direction = select_dc_direction(/,/saturate_block(&mut qf);/p'
    printf 'qf\n}\n'
} >"$work/levels.rs"
more=levels
driven coefficients
"$work/coefficients" ${2:+"$2"}
