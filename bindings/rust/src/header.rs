// The header of a macroblock, out of bits.
use crate::answer::{ANSWER, result};
use crate::{Decoded, Header, MbType, Refusal, ffi};

// How many numbers a header has.
pub(crate) const HEADER: usize = 6;

/// The header of a macroblock of an I-VOP, as it was read.
#[derive(Clone, Copy, Debug, PartialEq, Eq)]
pub struct HeaderFields {
    /// [`Intra`](MbType::Intra), or [`IntraQ`](MbType::IntraQ) where dquant follows.
    pub mb_type: MbType,
    /// Which chroma blocks are coded: Cb by the bit of 2, Cr by that of 1.
    pub cbpc: u8,
    /// AC values are predicted.
    pub ac_pred_flag: bool,
    /// Which luma blocks are coded: of the four bits the highest is block 0's.
    pub cbpy: u8,
    /// What dquant changes the quantiser by: -2 to 2, and 0 where there is none.
    pub dquant: i32,
    /// The quantiser after that change, limited to 1 to 31. It is the one before the next header.
    pub quantiser_scale: u32,
}

impl HeaderFields {
    /// What texture takes of it where it is handed in, beside [`ac_pred_flag`](HeaderFields::ac_pred_flag) and
    /// [`quantiser_scale`](HeaderFields::quantiser_scale), which go into the [`Context`](crate::Context).
    pub const fn header(&self) -> Header {
        Header {
            not_coded: false,
            mb_type: self.mb_type,
            cbpy: self.cbpy,
            cbpc: self.cbpc,
        }
    }
}

/// Reads the header of a macroblock of an I-VOP, from bit `at` of the data on: mcbpc, any number of stuffing codes before it skipped,
/// ac_pred_flag, cbpy, and dquant where the type has a quantiser change. `quantiser_scale` is the quantiser before the header.
///
/// The bits and the position are those of the header, its stuffing among them, and it has no events.
///
/// # Errors
///
/// By the state, in this order: 11 where the data has more than 1,048,576 bytes or `at` lies past its end; 12 where the quantiser is
/// outside 1 to 31. Then by the bits: 1, 16 and 17.
///
/// ```
/// use vaxembro::{HeaderFields, MbType, parse_macroblock_header};
///
/// // 000000001 is stuffing; then 0001, 1, 0011 and 01: intra with a quantiser change, AC prediction, no luma block, -2
/// let (fields, read) = parse_macroblock_header(&[0x00, 0x8C, 0xD0], 0, 8)?;
/// assert_eq!((read.bits, read.position), (20, 20));
/// assert_eq!(fields, HeaderFields { mb_type: MbType::IntraQ, cbpc: 0, ac_pred_flag: true, cbpy: 0, dquant: -2, quantiser_scale: 6 });
/// // nine zeros begin no code, and eight may be cut
/// assert_eq!(parse_macroblock_header(&[0x00, 0x00], 0, 8).unwrap_err().number, 16);
/// assert_eq!(parse_macroblock_header(&[0x00], 0, 8).unwrap_err().number, 17);
/// # Ok::<(), vaxembro::Refusal>(())
/// ```
#[rustfmt::skip]
pub fn parse_macroblock_header(data: &[u8], at: usize, quantiser_scale: u32) -> Result<(HeaderFields, Decoded), Refusal> {
    let (mut header, mut answer) = ([0; HEADER], [0; ANSWER]);
    // SAFETY: each pointer and length are one slice's, and those that are written are borrowed for this call alone.
    let number = unsafe {
        ffi::vaxembro_parse_macroblock_header(
            data.as_ptr(), data.len(), at, quantiser_scale, header.as_mut_ptr(), header.len(), answer.as_mut_ptr(), answer.len(),
        )
    };
    with_fields(number, &header, &answer)
}

// The number that a call gives and what its header and answer hold, as a result.
pub(crate) fn with_fields(number: u32, header: &[i32; HEADER], answer: &[usize; ANSWER]) -> Result<(HeaderFields, Decoded), Refusal> {
    result(number, answer).map(|decoded| (fields(header), decoded))
}

// What the six numbers of an accepted header say: the type is 4 or 5, and none but dquant is below 0.
fn fields(&[mb_type, cbpc, ac_pred_flag, cbpy, dquant, quantiser]: &[i32; HEADER]) -> HeaderFields {
    HeaderFields {
        mb_type: if mb_type == MbType::IntraQ as i32 {
            MbType::IntraQ
        } else {
            MbType::Intra
        },
        cbpc: cbpc as u8,
        ac_pred_flag: ac_pred_flag != 0,
        cbpy: cbpy as u8,
        dquant,
        quantiser_scale: quantiser as u32,
    }
}
