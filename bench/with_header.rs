// Macroblocks with their headers in their bits, and the same ones with their headers handed in: both by the C functions, so that they
// differ in nothing else.
use super::{DEPTH, Decoder, Drawn, QUANTISER, Stream, WIDTH, by_turns};
use crate::common::header::Header;
use crate::common::heading::Heading;
use vaxembro::{Matrix, Method, STORE, Samples, ffi};

// The flags of the C interface.
const AC_PRED: u32 = 2;
const DC_CODES: u32 = 32;
const METHOD_ONE: u32 = 128;

struct Alone {
    in_bits: bool,
    method: Method,
}

struct InPicture {
    in_bits: bool,
    method: Method,
}

// The flags of a macroblock whose header is handed in; those of one whose header is not are the same without the header's.
fn flags(header: &Header, in_bits: bool, in_picture: bool) -> u32 {
    let predicted = !in_bits && in_picture && header.ac_pred_flag;
    DC_CODES + if predicted { AC_PRED } else { 0 }
}

fn position(number: u32, answer: &[usize; 9]) -> usize {
    assert_eq!(number, 0, "a macroblock");
    unsafe { ffi::vaxembro_position(answer.as_ptr(), answer.len()) }
}

impl Decoder for Alone {
    #[rustfmt::skip]
    fn decode(&mut self, stream: &Stream, each: &mut dyn FnMut(&mut Samples)) {
        let (mut neighbours, matrix) = ([0; 21], Matrix::default());
        neighbours[..5].copy_from_slice(&[4 << DEPTH, 4 << DEPTH, 4 << DEPTH, QUANTISER as i32, QUANTISER as i32]);
        let (w, near) = (matrix.0.as_flattened(), &neighbours);
        let (data, method) = (&stream.data, if self.method == Method::One { METHOD_ONE } else { 0 });
        let (mut at, mut samples, mut fields, mut answer) = (0, [0; 384], [0; 6], [0; 9]);
        for (h, quantiser) in &stream.headers {
            let flags = method + flags(h, self.in_bits, false);
            let number = unsafe {
                if self.in_bits {
                    ffi::vaxembro_decode_intra_macroblock_with_header(
                        data.as_ptr(), data.len(), at, *quantiser, DEPTH, flags, near.as_ptr(), near.len(), w.as_ptr(), w.len(),
                        samples.as_mut_ptr(), samples.len(), fields.as_mut_ptr(), fields.len(), answer.as_mut_ptr(), answer.len(),
                    )
                } else {
                    ffi::vaxembro_decode_intra_macroblock(
                        data.as_ptr(), data.len(), at, h.mb_type, h.cbpy, h.cbpc, *quantiser, DEPTH, flags, near.as_ptr(), near.len(),
                        w.as_ptr(), w.len(), samples.as_mut_ptr(), samples.len(), answer.as_mut_ptr(), answer.len(),
                    )
                }
            };
            at = position(number, &answer);
            each(&mut samples);
        }
    }
}

impl Decoder for InPicture {
    #[rustfmt::skip]
    fn decode(&mut self, stream: &Stream, each: &mut dyn FnMut(&mut Samples)) {
        let (mut state, mut store, matrix) = ([0; 5], [0; STORE * WIDTH as usize], Matrix::default());
        let (data, w) = (&stream.data, matrix.0.as_flattened());
        let method = u32::from(self.method == Method::One);
        let opened = unsafe { ffi::vaxembro_open(stream.width, stream.height, DEPTH, method, state.as_mut_ptr(), state.len()) };
        assert_eq!(opened, 0, "a picture");
        let (mut at, mut samples, mut fields, mut answer) = (0, [0; 384], [0; 6], [0; 9]);
        for (h, quantiser) in &stream.headers {
            let flags = flags(h, self.in_bits, true);
            let number = unsafe {
                if self.in_bits {
                    ffi::vaxembro_decode_macroblock_with_header(
                        state.as_mut_ptr(), state.len(), data.as_ptr(), data.len(), at, *quantiser, flags, w.as_ptr(), w.len(),
                        samples.as_mut_ptr(), samples.len(), store.as_mut_ptr(), store.len(), fields.as_mut_ptr(), fields.len(),
                        answer.as_mut_ptr(), answer.len(),
                    )
                } else {
                    ffi::vaxembro_decode_macroblock(
                        state.as_mut_ptr(), state.len(), data.as_ptr(), data.len(), at, h.mb_type, h.cbpy, h.cbpc, *quantiser, flags,
                        w.as_ptr(), w.len(), samples.as_mut_ptr(), samples.len(), store.as_mut_ptr(), store.len(),
                        answer.as_mut_ptr(), answer.len(),
                    )
                }
            };
            at = position(number, &answer);
            each(&mut samples);
        }
    }
}

// The macroblocks with their headers, alone without AC prediction as the others are, beside the same ones without.
pub fn beside(name: &str, macroblocks: &[Drawn], without: &Stream, in_picture: bool, method: Method, rounds: usize) {
    let with = Stream::of(macroblocks, |h| {
        let ac_pred_flag = in_picture && h.ac_pred_flag;
        Some(Heading::of(Header { ac_pred_flag, ..*h }))
    });
    let [one, other] = if in_picture {
        let mut sides = [true, false].map(|in_bits| InPicture { in_bits, method });
        let [one, other] = &mut sides;
        by_turns(name, [(one, &with), (other, without)], rounds)
    } else {
        let mut sides = [true, false].map(|in_bits| Alone { in_bits, method });
        let [one, other] = &mut sides;
        by_turns(name, [(one, &with), (other, without)], rounds)
    };
    println!("{name:44} {one:8.0} {other:8.0} {:8.2}", one / other);
}
