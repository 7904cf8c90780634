// What a call gives.
use crate::{Refusal, ffi};

// How many numbers an answer has.
pub(crate) const ANSWER: usize = 9;

/// An accepted macroblock, or its header by itself.
#[derive(Clone, Copy, Debug, PartialEq, Eq)]
pub struct Decoded {
    /// How many bits were read, those of a header that is in them among them.
    pub bits: usize,
    /// The position after them: the bit at which the next macroblock may begin, or after a header its blocks.
    pub position: usize,
    /// How its events were spelled; a header has none.
    pub spellings: Spellings,
}

/// How many events of a macroblock were spelled in each way, its six blocks together. An escape counts once; a DC part is no event.
///
/// ```
/// use vaxembro::{Context, Header, Matrix, Method, Neighbours, Spellings, decode_intra_macroblock};
///
/// // 011 and 0000011 0 01110, an escape of type 1; then 011, 011, 011, 11 and 11, blocks that are not coded
/// let data = [0x60, 0xCE, 0x6D, 0xF8];
/// let (header, context, matrix) = (Header::intra(8, 0), Context::new(8), Matrix::default());
/// let outside = Neighbours::outside(8, 8);
/// let decoded = decode_intra_macroblock(&data, 0, header, context, 8, Method::Two, &outside, &matrix, &mut [0; 384])?;
/// assert_eq!(decoded.spellings, Spellings { type1: 1, ..Spellings::default() });
/// # Ok::<(), vaxembro::Refusal>(())
/// ```
#[derive(Clone, Copy, Debug, Default, PartialEq, Eq)]
pub struct Spellings {
    /// A code and its sign, reversible or not.
    pub plain: u32,
    /// An escape of type 1: a code and its sign, the magnitude raised.
    pub type1: u32,
    /// An escape of type 2: a code and its sign, the run raised.
    pub type2: u32,
    /// An escape of type 3: last, run and level written out.
    pub type3: u32,
    /// A reversible escape: last, run, magnitude and sign written out.
    pub rvlc_escape: u32,
}

// The number that a call gives and what its answer holds, as a result.
pub(crate) fn result(number: u32, answer: &[usize; ANSWER]) -> Result<Decoded, Refusal> {
    let (at, len) = (answer.as_ptr(), answer.len());
    // SAFETY: the pointer and the length are one array's.
    unsafe {
        match number {
            0 => Ok(Decoded {
                bits: ffi::vaxembro_bits(at, len),
                position: ffi::vaxembro_position(at, len),
                spellings: spellings(answer),
            }),
            number => Err(Refusal {
                number,
                figure: ffi::vaxembro_figure(at, len),
            }),
        }
    }
}

fn spellings(answer: &[usize; ANSWER]) -> Spellings {
    // SAFETY: the pointer and the length are one array's.
    let of = |which| unsafe { ffi::vaxembro_spelling(answer.as_ptr(), answer.len(), which) };
    Spellings {
        plain: of(0),
        type1: of(1),
        type2: of(2),
        type3: of(3),
        rvlc_escape: of(4),
    }
}
