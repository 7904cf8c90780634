// What a call brings beside its bits.

/// The type that a macroblock's header says. Only [`Intra`](MbType::Intra) and [`IntraQ`](MbType::IntraQ) are decoded; any other is
/// refused by 10.
#[derive(Clone, Copy, Debug, PartialEq, Eq)]
pub enum MbType {
    /// No type.
    Missing,
    /// Inter.
    Inter,
    /// Inter, with another quantiser.
    InterQ,
    /// Inter, with four vectors.
    Inter4V,
    /// Intra.
    Intra,
    /// Intra, with another quantiser.
    IntraQ,
}

/// What texture takes of a macroblock's header, where it is handed in.
#[derive(Clone, Copy, Debug, PartialEq, Eq)]
pub struct Header {
    /// Where it is set the macroblock is refused by 9.
    pub not_coded: bool,
    /// Refused by 10 where it is not intra.
    pub mb_type: MbType,
    /// Which luma blocks are coded: of the low four bits the highest is block 0's. Higher bits are not looked at.
    pub cbpy: u8,
    /// Which chroma blocks are coded: Cb by the bit of 2, Cr by that of 1. Higher bits are not looked at.
    pub cbpc: u8,
}

impl Header {
    /// A coded intra macroblock.
    pub const fn intra(cbpy: u8, cbpc: u8) -> Header {
        Header {
            not_coded: false,
            mb_type: MbType::Intra,
            cbpy,
            cbpc,
        }
    }
}

/// The method of inverse quantisation.
#[derive(Clone, Copy, Debug, PartialEq, Eq)]
pub enum Method {
    /// By a matrix, with mismatch control: `quant_type` 1.
    One,
    /// Without a matrix: `quant_type` 0.
    Two,
}

/// The quantiser and the options of a call.
#[derive(Clone, Copy, Debug, PartialEq, Eq)]
pub struct Context {
    /// 1 to 31; any other is refused by 12. Where the header is in the bits, the quantiser before it.
    pub quantiser_scale: u32,
    /// AC values are predicted. Not looked at where the header is in the bits.
    pub ac_pred_flag: bool,
    /// Every block is scanned by the alternate vertical scan, whatever the prediction chooses.
    pub alternate_vertical_scan: bool,
    /// No mismatch control, which only [`Method::One`] has.
    pub intra_mismatch_exempt: bool,
    /// A sample that is half a number goes to the even one, otherwise away from zero.
    pub halves_to_even: bool,
    /// Each block begins with a DC code; otherwise its DC stands among the events.
    pub use_intra_dc_vlc: bool,
    /// Events are read by the reversible codes.
    pub reversible_vlc: bool,
}

impl Context {
    /// DC codes in use, and no other option.
    pub const fn new(quantiser_scale: u32) -> Context {
        Context {
            quantiser_scale,
            ac_pred_flag: false,
            alternate_vertical_scan: false,
            intra_mismatch_exempt: false,
            halves_to_even: false,
            use_intra_dc_vlc: true,
            reversible_vlc: false,
        }
    }
}

/// The matrix of [`Method::One`], row by row. There a zero in it is refused by 12; by [`Method::Two`] it is not looked at.
#[derive(Clone, Copy, Debug, PartialEq, Eq)]
pub struct Matrix(pub [[u8; 8]; 8]);

impl Default for Matrix {
    /// The default matrix for intra blocks.
    fn default() -> Matrix {
        Matrix([
            [8, 17, 18, 19, 21, 23, 25, 27],
            [17, 18, 19, 21, 23, 25, 27, 28],
            [20, 21, 22, 23, 24, 26, 28, 30],
            [21, 22, 23, 24, 26, 28, 30, 32],
            [22, 23, 24, 26, 28, 30, 32, 35],
            [23, 24, 26, 28, 30, 32, 35, 38],
            [25, 26, 28, 30, 32, 35, 38, 41],
            [27, 28, 30, 32, 35, 38, 41, 45],
        ])
    }
}

// The flags of the C interface.
pub(crate) fn flags(header: Header, context: Context, method: Method) -> u32 {
    let all = [
        header.not_coded,
        context.ac_pred_flag,
        context.alternate_vertical_scan,
        context.intra_mismatch_exempt,
        context.halves_to_even,
        context.use_intra_dc_vlc,
        context.reversible_vlc,
        method == Method::One,
    ];
    all.iter().rev().fold(0, |flags, &flag| 2 * flags + u32::from(flag))
}
