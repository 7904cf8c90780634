// 17, which the original does not know: the bits end inside a code. It only looks at a code, so that where it refuses by 2, 4 or 16 its
// reader stands there, and all that is left must be a proper beginning of a code that is sought there.
use super::bits::bits_from;
use super::numbers;
use crate::bitreader::BitReader;
use crate::block::{self, BlockAssemblyError};
use crate::macroblock::{CBPY_4, MCBPC_I, MacroblockParseError};
use crate::texture::{self, DcComponent, TcoefTable, TextureParseError};
use std::sync::LazyLock;

// The codes of the original's tables, as text.
struct Codes {
    luma: Vec<String>,
    chroma: Vec<String>,
    intra: Vec<String>,
    inter: Vec<String>,
    reversible: Vec<String>,
    mcbpc: Vec<String>,
    cbpy: Vec<String>,
}

static CODES: LazyLock<Codes> = LazyLock::new(|| Codes {
    luma: sizes(DcComponent::Luminance),
    chroma: sizes(DcComponent::Chrominance),
    intra: plain(TcoefTable::Intra),
    inter: plain(TcoefTable::Inter),
    reversible: reversible(),
    // with stuffing
    mcbpc: MCBPC_I.iter().map(|r| text(r.0.into(), r.1)).collect(),
    cbpy: CBPY_4.iter().map(|r| text(r.0.into(), r.1)).collect(),
});

fn text(code: u32, len: u8) -> String {
    format!("{code:0len$b}", len = usize::from(len))
}

fn sizes(component: DcComponent) -> Vec<String> {
    let rows = texture::dc_size_table(component);
    rows.iter().map(|r| text(r.0.into(), r.1)).collect()
}

// With the escape. Behind one of type 1 or 2 it is not sought, which makes no difference: what begins it begins a row as well.
fn plain(table: TcoefTable) -> Vec<String> {
    let mut all: Vec<String> = texture::tcoef_table(table).iter().map(|r| text(r.0, r.1)).collect();
    let escape = text(texture::ESCAPE.0, texture::ESCAPE.1);
    assert!((1..escape.len()).all(|n| cut(&all, &escape[..n])));
    all.push(escape);
    all
}

fn reversible() -> Vec<String> {
    let rows = texture::rvlc_tcoef_table().iter().map(|r| (r.0, r.1));
    rows.chain([texture::RVLC_ESCAPE]).map(|(code, len)| text(code, len)).collect()
}

pub fn dc_codes(component: DcComponent) -> &'static [String] {
    match component {
        DcComponent::Luminance => &CODES.luma,
        DcComponent::Chrominance => &CODES.chroma,
    }
}

pub fn event_codes(reversible: bool, table: TcoefTable) -> &'static [String] {
    match (reversible, table) {
        (true, _) => &CODES.reversible,
        (false, TcoefTable::Intra) => &CODES.intra,
        (false, TcoefTable::Inter) => &CODES.inter,
    }
}

// Whether one of the codes begins with this and is longer.
fn cut(codes: &[String], rest: &str) -> bool {
    codes.iter().any(|code| code.starts_with(rest) && code.len() > rest.len())
}

fn ends_inside(br: &BitReader, codes: &[String]) -> bool {
    // no code is longer
    if codes.iter().all(|code| code.len() <= br.remaining_bits()) {
        return false;
    }
    let rest = bits_from(br.data(), br.bit_position());
    let rest: String = rest.iter().map(|&b| if b { '1' } else { '0' }).collect();
    cut(codes, &rest)
}

// The number, and the figure, where these codes were sought.
fn where_sought(told: (u32, u32), br: &BitReader, codes: &[String]) -> (u32, u32) {
    match told {
        (2 | 4 | 16, _) if ends_inside(br, codes) => (17, 0),
        told => told,
    }
}

pub fn of_texture(e: TextureParseError, br: &BitReader, codes: &[String]) -> (u32, u32) {
    where_sought(numbers::of_texture(e), br, codes)
}

// The same of a refusal in block i, with plain or reversible events.
pub fn of_block(e: BlockAssemblyError, br: &BitReader, i: usize, reversible: bool) -> (u32, u32) {
    let BlockAssemblyError::Texture(e) = e else {
        return numbers::of_block(e);
    };
    match e {
        TextureParseError::InvalidDcSize { .. } => of_texture(e, br, dc_codes(block::block_component(i))),
        _ => of_texture(e, br, event_codes(reversible, TcoefTable::Intra)),
    }
}

// The same of a refusal in a header. Where the original is cut short it does not tell what it sought.
pub fn of_header(e: MacroblockParseError, br: &BitReader) -> (u32, u32) {
    let codes: &[String] = match e {
        MacroblockParseError::InvalidMcbpc { .. } => &CODES.mcbpc,
        MacroblockParseError::InvalidCbpy { .. } => &CODES.cbpy,
        _ => &[],
    };
    where_sought(numbers::of_header(e), br, codes)
}
