// A macroblock alone.
use crate::answer::{ANSWER, result};
use crate::given::flags;
use crate::header::{HEADER, with_fields};
use crate::{Context, Decoded, Header, HeaderFields, Matrix, Method, Refusal, Samples, ffi};

/// What a macroblock that is decoded alone takes of A (left), B (above left) and C (above). What is out of range is refused by 13.
#[derive(Clone, Copy, Debug, PartialEq, Eq)]
pub struct Neighbours {
    /// The dequantised DC of A, within ±65,536.
    pub fa_dc: i32,
    /// That of B.
    pub fb_dc: i32,
    /// That of C.
    pub fc_dc: i32,
    /// The quantiser of A, 1 to 31.
    pub qp_a: u32,
    /// That of C.
    pub qp_c: u32,
    /// The levels of A's first column after its DC, each -2048 to 2047; none where A is missing.
    pub a_first_column: Option<[i32; 7]>,
    /// Those of C's first row.
    pub c_first_row: Option<[i32; 7]>,
}

impl Neighbours {
    /// None is there: their DC is 2^(depth+2), and their quantiser the present one. A depth above 12, which every call refuses, counts
    /// as 12.
    pub fn outside(bits_per_pixel: u32, quantiser_scale: u32) -> Neighbours {
        let dc = 4 << bits_per_pixel.min(12);
        Neighbours {
            fa_dc: dc,
            fb_dc: dc,
            fc_dc: dc,
            qp_a: quantiser_scale,
            qp_c: quantiser_scale,
            a_first_column: None,
            c_first_row: None,
        }
    }

    fn numbers(&self) -> [i32; 21] {
        // a quantiser that does not fit is as bad as 0
        let quantiser = |q: u32| i32::try_from(q).unwrap_or(0);
        let mut all = [0; 21];
        all[..3].copy_from_slice(&[self.fa_dc, self.fb_dc, self.fc_dc]);
        all[3..5].copy_from_slice(&[quantiser(self.qp_a), quantiser(self.qp_c)]);
        all[5..7].copy_from_slice(&[self.a_first_column.is_some().into(), self.c_first_row.is_some().into()]);
        all[7..14].copy_from_slice(&self.a_first_column.unwrap_or_default());
        all[14..].copy_from_slice(&self.c_first_row.unwrap_or_default());
        all
    }
}

/// Decodes one macroblock alone, from bit `at` of the data on, its six blocks with the same neighbours.
///
/// # Errors
///
/// The samples are as they were. By the state, in this order: 11 where the data has more than 1,048,576 bytes or `at` lies past its end;
/// 12 where the quantiser is outside 1 to 31, the depth outside 4 to 12, or the matrix of method 1 has a zero; 13 where a number of the
/// neighbours is out of range; 9 where the header says not coded; 10 where its type is not intra. Then by the bits: 1 to 8, and 17.
///
/// ```
/// use vaxembro::{Context, Header, Matrix, Method, Neighbours, decode_intra_macroblock};
///
/// let mut samples = [0; 384];
/// let (header, context, matrix) = (Header::intra(0, 0), Context::new(8), Matrix::default());
/// let outside = Neighbours::outside(8, 8);
/// decode_intra_macroblock(&[0x6D, 0xBF], 0, header, context, 8, Method::Two, &outside, &matrix, &mut samples)?;
/// assert_eq!(samples, [128; 384]);
/// # Ok::<(), vaxembro::Refusal>(())
/// ```
#[allow(clippy::too_many_arguments)]
#[rustfmt::skip]
pub fn decode_intra_macroblock(
    data: &[u8],
    at: usize,
    header: Header,
    context: Context,
    bits_per_pixel: u32,
    method: Method,
    neighbours: &Neighbours,
    matrix: &Matrix,
    samples: &mut Samples,
) -> Result<Decoded, Refusal> {
    let mut answer = [0; ANSWER];
    let (neighbours, matrix) = (neighbours.numbers(), matrix.0.as_flattened());
    // SAFETY: each pointer and length are one slice's, and those that are written are borrowed for this call alone.
    let number = unsafe {
        ffi::vaxembro_decode_intra_macroblock(
            data.as_ptr(), data.len(), at, header.mb_type as u32, header.cbpy, header.cbpc, context.quantiser_scale, bits_per_pixel,
            flags(header, context, method), neighbours.as_ptr(), neighbours.len(), matrix.as_ptr(), matrix.len(),
            samples.as_mut_ptr(), samples.len(), answer.as_mut_ptr(), answer.len(),
        )
    };
    result(number, &answer)
}

/// Decodes one macroblock alone as [`decode_intra_macroblock`] does, with its header in the bits, from bit `at` of the data on.
///
/// The context's quantiser is the one before the header; the samples are worked out with the header's `ac_pred_flag` and the quantiser
/// after it. The bits are those of the header and of the blocks.
///
/// # Errors
///
/// The samples are as they were. By the state, in this order: 11, 12 and 13 as there. Then by the header: 1, 16 and 17. Then by the
/// blocks: 1 to 8, and 17.
///
/// ```
/// use vaxembro::{Context, Matrix, Method, Neighbours, decode_intra_macroblock_with_header};
///
/// // 1, 0 and 0011, and then six DC parts of difference 0
/// let (data, mut samples) = ([0x8D, 0xB6, 0xFC], [0; 384]);
/// let (context, outside, matrix) = (Context::new(8), Neighbours::outside(8, 8), Matrix::default());
/// let (fields, decoded) = decode_intra_macroblock_with_header(&data, 0, context, 8, Method::Two, &outside, &matrix, &mut samples)?;
/// assert_eq!((fields.quantiser_scale, decoded.bits), (8, 22));
/// assert_eq!(samples, [128; 384]);
/// # Ok::<(), vaxembro::Refusal>(())
/// ```
#[allow(clippy::too_many_arguments)]
#[rustfmt::skip]
pub fn decode_intra_macroblock_with_header(
    data: &[u8],
    at: usize,
    context: Context,
    bits_per_pixel: u32,
    method: Method,
    neighbours: &Neighbours,
    matrix: &Matrix,
    samples: &mut Samples,
) -> Result<(HeaderFields, Decoded), Refusal> {
    let (mut header, mut answer) = ([0; HEADER], [0; ANSWER]);
    let (neighbours, matrix) = (neighbours.numbers(), matrix.0.as_flattened());
    // SAFETY: each pointer and length are one slice's, and those that are written are borrowed for this call alone.
    let number = unsafe {
        ffi::vaxembro_decode_intra_macroblock_with_header(
            data.as_ptr(), data.len(), at, context.quantiser_scale, bits_per_pixel, flags(Header::intra(0, 0), context, method),
            neighbours.as_ptr(), neighbours.len(), matrix.as_ptr(), matrix.len(), samples.as_mut_ptr(), samples.len(),
            header.as_mut_ptr(), header.len(), answer.as_mut_ptr(), answer.len(),
        )
    };
    with_fields(number, &header, &answer)
}
