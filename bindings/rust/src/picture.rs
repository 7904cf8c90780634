// A picture, macroblock by macroblock.
use crate::answer::{ANSWER, result};
use crate::given::flags;
use crate::header::{HEADER, with_fields};
use crate::{Context, Decoded, Header, HeaderFields, Matrix, Method, Refusal, Samples, ffi};

/// How many numbers of store a picture needs for each macroblock of its width.
pub const STORE: usize = 192;

/// A picture over a lent store, in which it keeps what later macroblocks take of earlier ones.
#[derive(Debug)]
pub struct Picture<'a> {
    state: [u32; 5],
    store: &'a mut [i32],
}

impl<'a> Picture<'a> {
    /// Opens a picture of 1 to 45 by 1 to 36 macroblocks, with 4 to 12 bits a sample.
    ///
    /// The store has [`STORE`] numbers for each macroblock of width, and need not be cleared. Where it is shorter, each macroblock is
    /// refused by 14.
    ///
    /// # Errors
    ///
    /// 11 where the width or the height is none of these, then 12 where the depth is none.
    ///
    /// ```
    /// use vaxembro::{Method, Picture, STORE};
    ///
    /// let mut store = [0; 45 * STORE];
    /// assert_eq!(Picture::open(45, 36, 8, Method::Two, &mut store)?.due(), Some((0, 0)));
    /// assert_eq!(Picture::open(46, 36, 8, Method::Two, &mut store).unwrap_err().number, 11);
    /// assert_eq!(Picture::open(45, 36, 3, Method::Two, &mut store).unwrap_err().number, 12);
    /// # Ok::<(), vaxembro::Refusal>(())
    /// ```
    pub fn open(width: u32, height: u32, bits_per_pixel: u32, method: Method, store: &'a mut [i32]) -> Result<Picture<'a>, Refusal> {
        let mut state = [0; 5];
        let quant_type = (method == Method::One).into();
        // SAFETY: the pointer and the length are one array's.
        match unsafe { ffi::vaxembro_open(width, height, bits_per_pixel, quant_type, state.as_mut_ptr(), state.len()) } {
            0 => Ok(Picture { state, store }),
            number => Err(Refusal { number, figure: 0 }),
        }
    }

    /// Decodes the macroblock that is due, from bit `at` of the data on: row by row, from the left.
    ///
    /// # Errors
    ///
    /// Picture, store and samples are as they were. By the state, in this order: 11 where the data has more than 1,048,576 bytes or
    /// `at` lies past its end; 12 where the quantiser is none or the matrix of method 1 has a zero; 14 where the store is too short;
    /// 15 where the picture is complete; 9 where the header says not coded; 10 where its type is not intra. Then by the bits: 1 to 8,
    /// and 17.
    ///
    /// ```
    /// use vaxembro::{Context, Header, Matrix, Method, Picture, Refusal, STORE};
    ///
    /// let (mut store, mut samples) = ([0; STORE], [0; 384]);
    /// let mut picture = Picture::open(1, 1, 8, Method::Two, &mut store)?;
    /// let (header, context, matrix) = (Header::intra(0, 0), Context::new(8), Matrix::default());
    /// // 011, 011 and 01, which begins 011 and 010
    /// let cut = picture.decode_macroblock(&[0x6D], 0, header, context, &matrix, &mut samples);
    /// assert_eq!(cut, Err(Refusal { number: 17, figure: 0 }));
    /// assert_eq!(picture.due(), Some((0, 0)));
    /// picture.decode_macroblock(&[0x6D, 0xBF], 0, header, context, &matrix, &mut samples)?;
    /// assert_eq!(picture.due(), None);
    /// # Ok::<(), Refusal>(())
    /// ```
    #[rustfmt::skip]
    pub fn decode_macroblock(
        &mut self,
        data: &[u8],
        at: usize,
        header: Header,
        context: Context,
        matrix: &Matrix,
        samples: &mut Samples,
    ) -> Result<Decoded, Refusal> {
        let mut answer = [0; ANSWER];
        let matrix = matrix.0.as_flattened();
        // SAFETY: each pointer and length are one slice's, and those that are written are borrowed for this call alone.
        let number = unsafe {
            ffi::vaxembro_decode_macroblock(
                self.state.as_mut_ptr(), self.state.len(), data.as_ptr(), data.len(), at, header.mb_type as u32, header.cbpy, header.cbpc,
                context.quantiser_scale, flags(header, context, Method::Two), matrix.as_ptr(), matrix.len(),
                samples.as_mut_ptr(), samples.len(), self.store.as_mut_ptr(), self.store.len(), answer.as_mut_ptr(), answer.len(),
            )
        };
        result(number, &answer)
    }

    /// Decodes the macroblock that is due as [`decode_macroblock`](Picture::decode_macroblock) does, with its header in the bits, from
    /// bit `at` of the data on.
    ///
    /// The context's quantiser is the one before the header; samples and store are worked out with the header's `ac_pred_flag` and the
    /// quantiser after it. The bits are those of the header and of the blocks.
    ///
    /// # Errors
    ///
    /// Picture, store and samples are as they were. By the state, in this order: 11, 12, 14 and 15 as there. Then by the header: 1, 16
    /// and 17. Then by the blocks: 1 to 8, and 17.
    ///
    /// ```
    /// use vaxembro::{Context, Matrix, Method, Picture, Refusal, STORE};
    ///
    /// let (mut store, mut samples, matrix) = ([0; 2 * STORE], [0; 384], Matrix::default());
    /// let mut picture = Picture::open(2, 1, 8, Method::Two, &mut store)?;
    /// // 0001, 0, 0011 and 10, and six DC parts of difference 0; then 1, 0 and 0011, and the same
    /// let (data, mut at, mut quantiser) = ([0x11, 0xCD, 0xB7, 0xF1, 0xB6, 0xDF, 0x80], 0, 7);
    /// while picture.due().is_some() {
    ///     let context = Context::new(quantiser);
    ///     let (fields, decoded) = picture.decode_macroblock_with_header(&data, at, context, &matrix, &mut samples)?;
    ///     (at, quantiser) = (decoded.position, fields.quantiser_scale);
    /// }
    /// assert_eq!((at, quantiser), (49, 8));
    /// # Ok::<(), Refusal>(())
    /// ```
    #[rustfmt::skip]
    pub fn decode_macroblock_with_header(
        &mut self,
        data: &[u8],
        at: usize,
        context: Context,
        matrix: &Matrix,
        samples: &mut Samples,
    ) -> Result<(HeaderFields, Decoded), Refusal> {
        let (mut header, mut answer) = ([0; HEADER], [0; ANSWER]);
        let matrix = matrix.0.as_flattened();
        // SAFETY: each pointer and length are one slice's, and those that are written are borrowed for this call alone.
        let number = unsafe {
            ffi::vaxembro_decode_macroblock_with_header(
                self.state.as_mut_ptr(), self.state.len(), data.as_ptr(), data.len(), at, context.quantiser_scale,
                flags(Header::intra(0, 0), context, Method::Two), matrix.as_ptr(), matrix.len(), samples.as_mut_ptr(), samples.len(),
                self.store.as_mut_ptr(), self.store.len(), header.as_mut_ptr(), header.len(), answer.as_mut_ptr(), answer.len(),
            )
        };
        with_fields(number, &header, &answer)
    }

    /// How many macroblocks lie beside each other.
    pub fn width(&self) -> u32 {
        self.state[0]
    }

    /// How many rows of macroblocks there are.
    pub fn height(&self) -> u32 {
        self.state[1]
    }

    /// The depth: how many bits a sample has.
    pub fn bits_per_pixel(&self) -> u32 {
        self.state[2]
    }

    /// The method of inverse quantisation, which is one for the whole picture.
    pub fn method(&self) -> Method {
        if self.state[3] == 0 { Method::Two } else { Method::One }
    }

    /// How many macroblocks were accepted.
    pub fn accepted(&self) -> u32 {
        self.state[4]
    }

    /// Column and row of the macroblock that is due; none in a complete picture.
    pub fn due(&self) -> Option<(u32, u32)> {
        let [width, height, _, _, accepted] = self.state;
        (accepted < width * height).then(|| (accepted % width, accepted / width))
    }
}
