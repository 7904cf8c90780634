#!/bin/sh
# Shows that a comparison can fail: one place at a time of the original, of the driver's picture layer, of what it makes of a header, of
# where 17 is due, or of what the driver takes from Rattle's side is altered in a copy, and the comparison must report each; of `record`,
# what is recorded must be another than the stored output of `replay`:
#     oracle/altered.sh FOLDER_OF_THE_RUST_SOURCES texture|block|macroblock|picture|headers|record [SCALE]
set -eu
name=${2:?texture, block, macroblock, picture, headers or record}
. "$(dirname "$0")/common/build.sh"
begin "$(dirname "$0")/$name" "${1:-}"
case $name in
record) ;;
headers) offered picture ;;
*) offered "$name" ;;
esac
scale=${3:-}
originals=$sources
drivers=$here
shared=$common
missed=0

compared() {
    if [ "$name" != record ]; then
        "$work/$name" ${scale:+"$scale"}
        return
    fi
    mkdir -p "$work/recorded"
    "$work/record" "$work/recorded" || return 1
    cmp -s "$work/recorded/stdout" "$top/crates/replay/stdout" || { echo 'DIFFERS: what is recorded'; return 1; }
}

# The comparisons that see it, the file, what sed does to it, and what that is.
alter() {
    case " $1 " in *" $name "*) ;; *) return 0 ;; esac
    sources=$work/altered/sources
    here=$work/altered/driver
    common=$work/altered/common
    rm -rf "$work/altered"
    mkdir -p "$work/altered"
    cp -r "$originals" "$sources"
    cp -r "$drivers" "$here"
    cp -r "$shared" "$common"
    cp -r "$drivers/../picture" "$work/altered/picture"
    file=$sources/$2
    for folder in "$work/altered/picture" "$common" "$here"; do
        if [ -e "$folder/$2" ]; then file=$folder/$2; fi
    done
    sed "$3" "$file" >"$work/file"
    if cmp -s "$work/file" "$file"; then
        echo "nothing to alter: $4" >&2
        exit 1
    fi
    cp "$work/file" "$file"
    driven "$name"
    if compared >"$work/told" 2>&1; then
        echo "NOT REPORTED  $4"
        missed=1
    elif grep -q '^DIFFERS' "$work/told"; then
        echo "reported      $4"
        if [ -n "${ORACLE_TELL:-}" ]; then sed -n '/^DIFFERS/,$p' "$work/told"; fi
    else
        tail -n 5 "$work/told" >&2
        exit 1
    fi
}

all='block macroblock picture record'
alter "$all" predictor.rs 's/if d_ab < d_bc/if d_ab <= d_bc/' 'C on equal gradients'
alter "$all" predictor.rs 's/(n + d \/ 2) \/ d/n \/ d/' 'division cut instead of rounded'
alter "$all" predictor.rs 's/value.clamp(-2048, 2047)/value.clamp(-2047, 2047)/' 'levels limited to -2047'
alter "$all" inverse_quant.rs 's/(qf \* w \* qs \* 2) \/ 16/(qf * w * qs * 2).div_euclid(16)/' 'floor in method 1'
alter "$all" inverse_quant.rs 's/sum & 1 == 0/sum \& 1 == 1/' 'mismatch control the other way round'
alter "$all" inverse_quant.rs 's/\* qs - 1/* qs/' 'method 2 without less 1 for an even quantiser'
alter "$all" scan.rs 's/FromLeft => ScanType::AlternateVertical/FromLeft => ScanType::AlternateHorizontal/' 'another scan from A'
alter "$all" scan.rs 's/15, 27, 28\],/15, 28, 27],/' 'two places of the zigzag exchanged'
alter "$all" scan.rs 's/Overflow { position: target }/Overflow { position: pos }/' 'the place instead of the landing told'
alter "$all" idct.rs 's/below + (below & 1)/below + 1/' 'halves to even rounded up'
alter "$all" idct.rs 's/^const HALF_INTEGER_TOLERANCE: f64 = .*/const HALF_INTEGER_TOLERANCE: f64 = 0.0;/' 'halves without tolerance'
alter "$all" texture.rs 's/if additional >= half_range/if additional > half_range/' 'a difference of exactly half the range'
alter "$all" block.rs 's/^ *predictors.qp_a,$/ctx.quantiser_scale,/' "A's quantiser unused"
alter "$all" block.rs '0,/if ctx.alternate_vertical_scan {/s//if false {/' 'alternate_vertical_scan not looked at'
alter "$all" block.rs 's/let hi = (1i32 << ctx.bits_per_pixel) - 1;/let hi = (1i32 << ctx.bits_per_pixel) - 2;/' 'samples limited one lower'
alter "$all" block.rs 's/        decode_ac_events(br, TcoefTable::Intra)?/        decode_ac_events(br, TcoefTable::Inter)?/' 'the other table'
alter 'macroblock record' block.rs 's/cbpc & 0b10 != 0/cbpc \& 0b01 != 0/' "Cb coded by Cr's bit"
alter 'macroblock record' block.rs 's/(0, 8), (8, 0)/(8, 0), (0, 8)/' 'blocks 1 and 2 exchanged'
alter 'macroblock record' block.rs '0,/if header.not_coded {/s//if false {/' 'a macroblock not coded taken as coded'
alter 'macroblock record' block.rs 's/Some(DerivedMbType::Intra) | Some(DerivedMbType::IntraQ) => {}/Some(DerivedMbType::Intra) => {}/' 'intra with a quantiser refused'
alter 'macroblock record' block.rs 's/cb: blocks\[4\]/cb: blocks[5]/' 'Cr in the place of Cb'
alter 'picture record' layer.rs 's/let there = beside(here, left, above)?;/let there = beside(place(if i == 1 { 0 } else { i }, column, row), left, above)?;/' 'the neighbours of block 1 taken from outside'
alter 'picture record' layer.rs 's/let around = predictors(of(1, 0), of(1, 1), of(0, 1)/let around = predictors(of(0, 1), of(1, 1), of(1, 0)/' 'A and C exchanged'
alter 'picture record' layer.rs 's/let around = predictors(of(1, 0), of(1, 1)/let around = predictors(of(1, 0), of(1, 0)/' 'A in the place of B'
alter 'picture record' layer.rs 's/1 << (depth + 2)/1 << (depth + 3)/' 'a missing DC twice as great'
alter 'picture record' layer.rs 's/k.map_or(quantiser, |k| k.quantiser as u32)/quantiser/' "the neighbours' quantisers unused"
alter 'picture record' layer.rs 's/column: std::array::from_fn(|v| qf\[v + 1\]\[0\])/column: std::array::from_fn(|v| qf[v][0])/' 'the column kept from row 0 on'
alter 'picture record' layer.rs 's/(x >= left \&\& y >= above)/(x >= left \&\& y > above)/' 'the first row of blocks taken as outside'
alter 'picture record' layer.rs 's/stored < 192 \* width as usize/stored < 96 * width as usize/' 'half a store enough'
alter picture layer.rs 's/return 13;/return 15;/' 'a number out of range in the store told as 15'
alter picture layer.rs 's/let row = c.is_none_or.*/let row = true;/' 'AC values of C out of range let through'
alter 'picture record' layer.rs 's/return 15;/return 11;/' 'a complete picture told as 11'
alter 'picture record' layer.rs 's/a.picture.numbers\[3\] += 1;//' 'the same macroblock due again'
rattle='texture block macroblock picture headers'
# What is taken of Rattle's side: what is done to it, and what that is.
taken() {
    alter 'texture block macroblock headers' main.rs "s/^ *(a, spellings)\$/{ $1 (a, spellings) }/" "$2"
    alter picture play.rs "s/^ *(a, spellings)\$/{ $1 (a, spellings) }/" "$2"
}
taken 'spellings.swap(1, 2);' 'types 1 and 2 exchanged in the spellings'
taken 'if a.number != 0 { spellings = [0; 5]; }' 'spellings written on a refusal'
taken 'if a.number == 17 { a.number = 4; }' '17 told as 4'
taken 'if a.number == 17 { a.number = 1; }' '17 told as 1'
alter "$rattle record" stopped.rs 's/code.starts_with(rest) && //' '17 for every short window'
alter "$rattle record" stopped.rs 's/(2 | 4 | 16, _) if/(1 | 2 | 4 | 16, _) if/' '17 where no bits are left'
alter "$rattle record" stopped.rs 's/=> (17, 0)/=> (17, 1)/' 'a figure with 17'
alter "$rattle record" stopped.rs 's/rows.chain(\[texture::RVLC_ESCAPE\])/rows/' 'the reversible escape not sought'
alter texture stopped.rs 's/code.len() > rest.len()/code.len() >= rest.len()/' 'a whole code taken for a cut one'
alter 'texture record' symbol_call.rs 's/dc_codes(component(chroma))/dc_codes(component(false))/' "luma's DC codes sought for chroma"
alter 'block macroblock' stopped.rs 's/block_component(i)/block_component(0)/' "luma's DC codes sought in every block"
alter headers macroblock.rs 's/0b00 => -1,/0b00 => 1,/' '00 of dquant as +1'
alter headers macroblock.rs 's/(0b1001, 4, 0b0011, 0b1100)/(0b1001, 4, 0b1100, 0b1100)/' 'one cell of cbpy from the inter column'
alter headers macroblock.rs 's/(0b00_0010, 6, 4, 0b10)/(0b00_0010, 6, 4, 0b01)/' 'Cb and Cr exchanged in one row of mcbpc'
alter headers header_call.rs 's/clamp(1, 31)/clamp(1, 32)/' 'the new quantiser limited to 32'
alter headers header_call.rs 's/clamp(1, 31)/clamp(0, 31)/' 'the new quantiser limited to 0'
alter headers header_call.rs 's/^ *\*quantiser_scale = .*//' 'the old quantiser for the values'
alter headers header_call.rs 's/^ *\*ac_pred_flag = .*//' "the context's flag instead of the header's"
alter headers whole_call.rs 's/bits: blocks.position - at,/bits: blocks.position - at - 9 * super::heading::stuffing(data, at),/' 'stuffing left out of the length'
alter headers layer.rs 's/&mut blocks.quantiser_scale,/\&mut { s.quantiser_scale },/' 'the old quantiser in a picture'
alter headers layer.rs 's/&mut blocks.flags\[0\])/\&mut { s.flags[0] })/' "the context's flag in a picture"
alter headers layer.rs 's/a.bits = .*/a.bits = a.position - s.at - 9 * crate::common::heading::stuffing(\&s.data, s.at);/' 'stuffing left out of the length in a picture'
alter headers layer.rs 's/|i| six\[i\].0)/|i| (six[i].0.0, Kept { quantiser: s.quantiser_scale as i32, ..six[i].0.1 }))/' 'the old quantiser kept in the store'
alter headers main.rs 's/^ *(a, UNTOLD)$/{ if a.number == 17 { a.number = 16; } (a, UNTOLD) }/' '16 where 17 is due'
alter headers main.rs 's/^ *(a, spellings)$/{ if a.number == 17 { a.number = 16; } (a, spellings) }/' '16 where 17 is due, of macroblocks'
alter headers main.rs 's/^ *(a, UNTOLD)$/{ if a.number == 16 { a.figure = 1; } (a, UNTOLD) }/' 'a figure with 16'
alter headers main.rs 's/^ *a.fields = f.fields();/if a.number != 0 { f.dquant_delta = 0; } &/' 'fields written on a refusal'
alter headers stopped.rs 's/MCBPC_I.iter()/MCBPC_I[..8].iter()/' 'stuffing not sought'
alter headers stopped.rs 's/=> &CODES.cbpy,/=> \&CODES.mcbpc,/' 'codes of mcbpc sought for cbpy'
exit $missed
