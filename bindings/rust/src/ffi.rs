//! The C interface as it is; `vaxembro.h` says more of what each function takes and gives.
//!
//! # Safety
//!
//! Each pointer and the length after it are one piece of memory, in numbers of its type. What is pointed to by `*mut` overlaps nothing
//! else that the same call is lent. A pointer may be null where its length is 0. No function asks more: each ends for every input.

#[rustfmt::skip]
#[link(name = "vaxembro", kind = "static")]
unsafe extern "C" {
    /// Opens a picture in `state`, of 5 numbers: 0, or 11, 12 or 14, and then the state is as it was.
    ///
    /// # Safety
    /// As the module says.
    pub fn vaxembro_open(width: u32, height: u32, bits_per_pixel: u32, quant_type: u32, state: *mut u32, state_len: usize) -> u32;

    /// Decodes the macroblock that is due in the picture of `state`: 0, or the number of the refusal. 64 numbers of `matrix`, 384 of
    /// `samples`, 192 of `store` for each macroblock of width, 9 of `answer`.
    ///
    /// # Safety
    /// As the module says.
    pub fn vaxembro_decode_macroblock(
        state: *mut u32, state_len: usize, data: *const u8, data_len: usize, at: usize, mb_type: u32, cbpy: u8, cbpc: u8,
        quantiser_scale: u32, flags: u32, matrix: *const u8, matrix_len: usize, samples: *mut i32, samples_len: usize,
        store: *mut i32, store_len: usize, answer: *mut usize, answer_len: usize,
    ) -> u32;

    /// Decodes one macroblock alone: 0, or the number of the refusal. 21 numbers of `neighbours`, the others as above.
    ///
    /// # Safety
    /// As the module says.
    pub fn vaxembro_decode_intra_macroblock(
        data: *const u8, data_len: usize, at: usize, mb_type: u32, cbpy: u8, cbpc: u8, quantiser_scale: u32, bits_per_pixel: u32,
        flags: u32, neighbours: *const i32, neighbours_len: usize, matrix: *const u8, matrix_len: usize, samples: *mut i32,
        samples_len: usize, answer: *mut usize, answer_len: usize,
    ) -> u32;

    /// Reads the header of a macroblock of an I-VOP: 0, or 14, 11, 12, 1, 16 or 17, and then `header` is as it was. 6 numbers of `header`:
    /// type (4 intra, 5 intra with a quantiser change), cbpc, ac_pred_flag, cbpy, what dquant changes the quantiser by, the quantiser
    /// after it. `quantiser_scale` is the one before it.
    ///
    /// # Safety
    /// As the module says.
    pub fn vaxembro_parse_macroblock_header(
        data: *const u8, data_len: usize, at: usize, quantiser_scale: u32, header: *mut i32, header_len: usize, answer: *mut usize,
        answer_len: usize,
    ) -> u32;

    /// Decodes the macroblock that is due, with its header in the bits: 0, or the number of the refusal. `quantiser_scale` is the one
    /// before the header, and the flags 1 and 2 are not looked at; the memory is as above.
    ///
    /// # Safety
    /// As the module says.
    pub fn vaxembro_decode_macroblock_with_header(
        state: *mut u32, state_len: usize, data: *const u8, data_len: usize, at: usize, quantiser_scale: u32, flags: u32,
        matrix: *const u8, matrix_len: usize, samples: *mut i32, samples_len: usize, store: *mut i32, store_len: usize,
        header: *mut i32, header_len: usize, answer: *mut usize, answer_len: usize,
    ) -> u32;

    /// Decodes one macroblock alone, with its header in the bits: 0, or the number of the refusal. Quantiser, flags and memory are as
    /// above.
    ///
    /// # Safety
    /// As the module says.
    pub fn vaxembro_decode_intra_macroblock_with_header(
        data: *const u8, data_len: usize, at: usize, quantiser_scale: u32, bits_per_pixel: u32, flags: u32, neighbours: *const i32,
        neighbours_len: usize, matrix: *const u8, matrix_len: usize, samples: *mut i32, samples_len: usize, header: *mut i32,
        header_len: usize, answer: *mut usize, answer_len: usize,
    ) -> u32;

    /// The number of an answer: 0 where the call was accepted, and where the answer is too short.
    ///
    /// # Safety
    /// As the module says.
    pub fn vaxembro_number(answer: *const usize, answer_len: usize) -> u32;

    /// The figure of an answer; 0 where it is too short.
    ///
    /// # Safety
    /// As the module says.
    pub fn vaxembro_figure(answer: *const usize, answer_len: usize) -> u32;

    /// How many bits were read; 0 where the answer is too short.
    ///
    /// # Safety
    /// As the module says.
    pub fn vaxembro_bits(answer: *const usize, answer_len: usize) -> usize;

    /// The position after the call; 0 where the answer is too short.
    ///
    /// # Safety
    /// As the module says.
    pub fn vaxembro_position(answer: *const usize, answer_len: usize) -> usize;

    /// How many events are spelled so: 0 is plain, 1 to 3 an escape of that type, 4 a reversible escape. 0 of any other spelling, and
    /// where the answer is too short.
    ///
    /// # Safety
    /// As the module says.
    pub fn vaxembro_spelling(answer: *const usize, answer_len: usize, which: u32) -> u32;
}
