// Document 01's numbers of the original's errors, and its ranges.
use super::tally::first_bad;
use crate::block::BlockAssemblyError;
use crate::macroblock::MacroblockParseError;
use crate::scan::InverseScanError;
use crate::texture::TextureParseError;

pub const MOST_BYTES: usize = 1_048_576;

// The number, and the figure.
pub fn of_texture(e: TextureParseError) -> (u32, u32) {
    match e {
        TextureParseError::Truncated => (1, 0),
        TextureParseError::InvalidDcSize { window } => (2, window.into()),
        TextureParseError::MarkerBitMissing => (3, 0),
        TextureParseError::InvalidTcoef { window } => (4, window.into()),
        TextureParseError::EscapeMarkerBitMissing => (5, 0),
        TextureParseError::ReservedEscapeLevel => (6, 0),
        TextureParseError::RvlcEscapeDelimiterMissing { window } => (7, window.into()),
        TextureParseError::RvlcEscapeOpenerMissing { .. } => unreachable!("only backward"),
    }
}

pub fn of_scan(e: InverseScanError) -> (u32, u32) {
    match e {
        InverseScanError::Overflow { position } => (8, position as u32),
    }
}

pub fn of_block(e: BlockAssemblyError) -> (u32, u32) {
    match e {
        BlockAssemblyError::Texture(e) => of_texture(e),
        BlockAssemblyError::InverseScan(e) => of_scan(e),
        BlockAssemblyError::NotCoded => (9, 0),
        BlockAssemblyError::NotIntra => (10, 0),
        BlockAssemblyError::NotInter => unreachable!("only inter"),
    }
}

// Of a header of an I-VOP, rectangular and not interlaced; 16 and 17 have no figure.
pub fn of_header(e: MacroblockParseError) -> (u32, u32) {
    match e {
        MacroblockParseError::Truncated => (1, 0),
        MacroblockParseError::InvalidMcbpc { .. } | MacroblockParseError::InvalidCbpy { .. } => (16, 0),
        other => unreachable!("{other}"),
    }
}

pub fn level_fine(z: i32) -> bool {
    (-2048..=2047).contains(&z)
}

pub fn dc_fine(z: i32) -> bool {
    (-65536..=65536).contains(&z)
}

pub fn quantiser_fine(q: u32) -> bool {
    (1..=31).contains(&q)
}

pub fn depth_fine(d: u32) -> bool {
    (4..=12).contains(&d)
}

// Data that is too long, or a start past its end, is 11.
pub fn data_fine(data: &[u8], at: usize) -> bool {
    data.len() <= MOST_BYTES && at <= 8 * data.len()
}

// Of the transform alone: 12, 13, or 0.
pub fn transform_state(values: &[[i32; 8]; 8], depth: u32) -> u32 {
    let fine = |v: &i32| (-8 << depth..8 << depth).contains(v);
    first_bad(depth_fine(depth), depth_fine(depth) && values.iter().flatten().all(fine))
}
