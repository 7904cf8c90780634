// Calls every function of the wrapper; what is due is worked out by hand from documents 01 and 02.
use std::error::Error;
use vaxembro::{
    Context, Decoded, Header, HeaderFields, Matrix, MbType, Method, Neighbours, Picture, Refusal, STORE, Samples, Spellings,
    decode_intra_macroblock, decode_intra_macroblock_with_header, ffi, parse_macroblock_header,
};

// What a call brings.
#[derive(Clone)]
struct Call {
    data: Vec<u8>,
    at: usize,
    header: Header,
    context: Context,
    bits_per_pixel: u32,
    method: Method,
    neighbours: Neighbours,
    matrix: Matrix,
}

// Bytes of bits written out; blanks part them.
fn bytes(text: &str) -> Vec<u8> {
    let bits: Vec<u8> = text.bytes().filter(|b| *b != b' ').map(|b| b - b'0').collect();
    bits.chunks(8)
        .map(|some| (0..8).fold(0, |byte, k| 2 * byte + some.get(k).unwrap_or(&0)))
        .collect()
}

// Six DC parts of difference 0, without neighbours.
fn worked() -> Call {
    Call {
        data: bytes("011 011 011 011 11 11"),
        at: 0,
        header: Header::intra(0, 0),
        context: Context::new(8),
        bits_per_pixel: 8,
        method: Method::Two,
        neighbours: Neighbours::outside(8, 8),
        matrix: Matrix::default(),
    }
}

fn reading(text: &str, cbpy: u8, cbpc: u8) -> Call {
    Call {
        data: bytes(text),
        header: Header::intra(cbpy, cbpc),
        ..worked()
    }
}

const BEFORE: Samples = [-1; 384];

const STUFFING: &str = "000000001";

// mcbpc without and with a quantiser change, by cbpc; cbpy by its value; dquant, and what it changes the quantiser by.
const MCBPC: [[&str; 4]; 2] = [["1", "001", "010", "011"], ["0001", "000001", "000010", "000011"]];
const CBPY: [&str; 16] = [
    "0011", "00101", "00100", "1001", "00011", "0111", "000010", "1011", "00010", "000011", "0101", "1010", "0100", "1000", "0110", "11",
];
const DQUANT: [(&str, i32); 5] = [("", 0), ("00", -1), ("01", -2), ("10", 1), ("11", 2)];

// A header's bits, with number k of the dquants, and what is read of it; `quantiser_scale` is the one after it.
fn header(k: usize, cbpc: u8, ac_pred_flag: bool, cbpy: u8, quantiser_scale: u32) -> (String, HeaderFields) {
    let (code, dquant) = DQUANT[k];
    let (kind, chroma, luma) = (usize::from(k > 0), usize::from(cbpc & 3), usize::from(cbpy & 15));
    let text = [MCBPC[kind][chroma], if ac_pred_flag { "1" } else { "0" }, CBPY[luma], code].concat();
    let fields = HeaderFields {
        mb_type: [MbType::Intra, MbType::IntraQ][kind],
        cbpc: chroma as u8,
        ac_pred_flag,
        cbpy: luma as u8,
        dquant,
        quantiser_scale,
    };
    (text, fields)
}

// A call whose header is in the bits: the fields as well.
type Whole = Result<(HeaderFields, Decoded), Refusal>;

impl Call {
    fn with(mut self, change: impl FnOnce(&mut Call)) -> Call {
        change(&mut self);
        self
    }

    fn in_this(&self, picture: &mut Picture, samples: &mut Samples) -> Result<Decoded, Refusal> {
        picture.decode_macroblock(&self.data, self.at, self.header, self.context, &self.matrix, samples)
    }

    fn whole_in_this(&self, picture: &mut Picture, samples: &mut Samples) -> Whole {
        picture.decode_macroblock_with_header(&self.data, self.at, self.context, &self.matrix, samples)
    }

    // As the first macroblock of a picture of 1 by 1; the store is told too.
    fn first<A>(&self, make: impl FnOnce(&mut Picture, &mut Samples) -> Result<A, Refusal>) -> (Result<A, Refusal>, Samples, [i32; STORE]) {
        let (mut store, mut samples) = ([-7; STORE], BEFORE);
        let mut picture = match Picture::open(1, 1, self.bits_per_pixel, self.method, &mut store) {
            Ok(picture) => picture,
            Err(refusal) => return (Err(refusal), samples, store),
        };
        let result = make(&mut picture, &mut samples);
        assert_eq!(picture.accepted(), u32::from(result.is_ok()));
        assert_eq!(picture.due(), if result.is_ok() { None } else { Some((0, 0)) });
        assert!(result.is_ok() || store == [-7; STORE], "the store was written");
        (result, samples, store)
    }

    fn in_picture(&self) -> (Result<Decoded, Refusal>, Samples) {
        let (result, samples, store) = self.first(|picture, samples| self.in_this(picture, samples));
        self.with_headers(result, |c, due| {
            assert_eq!(c.first(|picture, samples| c.whole_in_this(picture, samples)), (due, samples, store));
        });
        (result, samples)
    }

    fn whole_in_picture(&self) -> (Whole, Samples) {
        let (result, samples, _) = self.first(|picture, samples| self.whole_in_this(picture, samples));
        (result, samples)
    }

    fn alone(&self) -> (Result<Decoded, Refusal>, Samples) {
        let (c, mut samples) = (self, BEFORE);
        let (header, neighbours) = (c.header, &c.neighbours);
        let result = decode_intra_macroblock(
            &c.data,
            c.at,
            header,
            c.context,
            c.bits_per_pixel,
            c.method,
            neighbours,
            &c.matrix,
            &mut samples,
        );
        c.with_headers(result, |c, due| assert_eq!(c.whole_alone(), (due, samples)));
        (result, samples)
    }

    fn whole_alone(&self) -> (Whole, Samples) {
        let (c, mut samples) = (self, BEFORE);
        let result = decode_intra_macroblock_with_header(
            &c.data,
            c.at,
            c.context,
            c.bits_per_pixel,
            c.method,
            &c.neighbours,
            &c.matrix,
            &mut samples,
        );
        (result, samples)
    }

    // The same with a header before the bits, without dquant and with each, and what is due then: the same but for the header's bits.
    fn with_headers(&self, result: Result<Decoded, Refusal>, see: impl Fn(&Call, Whole)) {
        let (h, q, len) = (self.header, self.context.quantiser_scale, self.data.len());
        let intra = matches!(h.mb_type, MbType::Intra | MbType::IntraQ);
        if h.not_coded || !intra || self.at > 8 * len || len > 4096 {
            return;
        }
        let bit = |k: usize| char::from(b'0' + (self.data[k / 8] >> (7 - k % 8) & 1));
        let (head, tail): (String, String) = ((0..self.at).map(bit).collect(), (self.at..8 * len).map(bit).collect());
        for (k, (_, change)) in DQUANT.iter().enumerate() {
            let before = q.wrapping_add_signed(-change);
            if k > 0 && !((1..32).contains(&q) && (1..32).contains(&before)) {
                continue;
            }
            let (text, fields) = header(k, h.cbpc, self.context.ac_pred_flag, h.cbpy, q);
            let text = STUFFING.repeat(k % 3) + &text;
            let (bits, fill) = (text.len(), "1".repeat((8 - text.len() % 8) % 8));
            let call = self.clone().with(|c| {
                c.data = bytes(&[&head, &*fill, &text, &tail].concat());
                c.at += fill.len();
                c.context.quantiser_scale = before;
                c.context.ac_pred_flag ^= k % 2 == 1;
            });
            let position = call.at + bits;
            see(
                &call,
                result.map(|d| (fields, decoded_as(position + d.bits, bits + d.bits, d.spellings))),
            );
            if result.err().is_none_or(|refusal| refusal.number < 9 || refusal.number == 17) {
                let read = parse_macroblock_header(&call.data, call.at, before);
                assert_eq!(read, Ok((fields, decoded(position, bits, NONE))));
            }
        }
    }
}

fn refused((result, samples): (Result<Decoded, Refusal>, Samples), number: u32, figure: u32, name: &str) {
    let refusal = result.expect_err(name);
    assert_eq!((refusal, refusal.name()), (Refusal { number, figure }, name));
    assert!(samples == BEFORE, "{name}: samples were written");
}

fn both_refuse(call: &Call, number: u32, figure: u32, name: &str) {
    refused(call.in_picture(), number, figure, name);
    refused(call.alone(), number, figure, name);
}

// So many events: plain, of type 1, 2 and 3, and reversible escapes.
fn counts([plain, type1, type2, type3, rvlc_escape]: [u32; 5]) -> Spellings {
    Spellings {
        plain,
        type1,
        type2,
        type3,
        rvlc_escape,
    }
}

fn decoded_as(position: usize, bits: usize, spellings: Spellings) -> Decoded {
    Decoded { bits, position, spellings }
}

fn decoded(position: usize, bits: usize, events: [u32; 5]) -> Decoded {
    decoded_as(position, bits, counts(events))
}

const NONE: [u32; 5] = [0; 5];
const ONE_PLAIN: [u32; 5] = [1, 0, 0, 0, 0];

fn accepted((result, samples): (Result<Decoded, Refusal>, Samples), position: usize, bits: usize, events: [u32; 5]) -> Samples {
    assert_eq!(result, Ok(decoded(position, bits, events)));
    samples
}

// Sample (x, y) of block i.
fn sample(samples: &Samples, i: usize, x: usize, y: usize) -> i32 {
    samples[if i < 4 {
        16 * (8 * (i / 2) + y) + 8 * (i % 2) + x
    } else {
        256 + 64 * (i - 4) + 8 * y + x
    }]
}

// Every row of these blocks, or every column.
fn rows_are(samples: &Samples, blocks: std::ops::Range<usize>, eight: [i32; 8]) {
    blocks.for_each(|i| (0..64).for_each(|k| assert_eq!(sample(samples, i, k % 8, k / 8), eight[k % 8], "block {i} place {k}")));
}

fn columns_are(samples: &Samples, blocks: std::ops::Range<usize>, eight: [i32; 8]) {
    blocks.for_each(|i| (0..64).for_each(|k| assert_eq!(sample(samples, i, k % 8, k / 8), eight[k / 8], "block {i} place {k}")));
}

fn flat(samples: &Samples, blocks: std::ops::Range<usize>, value: i32) {
    rows_are(samples, blocks, [value; 8]);
}

// The luma scaler at quantiser 8 is 16, the chroma scaler 10: 64 * 16 / 8 = 128, and 102 * 10 / 8 = 127.5, which is 128.
#[test]
fn worked_case() {
    flat(&accepted(worked().in_picture(), 16, 16, NONE), 0..6, 128);
    flat(&accepted(worked().alone(), 16, 16, NONE), 0..6, 128);
    let other = worked().with(|c| {
        c.header = Header {
            mb_type: MbType::IntraQ,
            cbpy: 0xF0,
            cbpc: 0xFC,
            not_coded: false,
        }
    });
    flat(&accepted(other.in_picture(), 16, 16, NONE), 0..6, 128);
}

// Block 0 is 65 * 16 / 8 = 130; in a picture blocks 1 to 3 are predicted from it.
#[test]
fn difference_1() {
    let c = reading("10101 111 011 011 011 11 11", 0, 0).with(|c| c.at = 5);
    let samples = accepted(c.in_picture(), 21, 16, NONE);
    flat(&samples, 0..4, 130);
    flat(&samples, 4..6, 128);
    let samples = accepted(c.alone(), 21, 16, NONE);
    flat(&samples, 0..1, 130);
    flat(&samples, 1..6, 128);
}

// Difference -4 in Cb: 98 * 10 / 8 = 122.5.
#[test]
fn halves() {
    let mut c = reading("011 011 011 011 001 011 11", 0, 0);
    flat(&accepted(c.in_picture(), 20, 20, NONE), 4..5, 123);
    c.context.halves_to_even = true;
    flat(&accepted(c.in_picture(), 20, 20, NONE), 4..5, 122);
    flat(&accepted(c.alone(), 20, 20, NONE), 4..5, 122);
}

#[test]
fn without_dc_codes() {
    let mut c = reading("", 0, 0);
    c.context.use_intra_dc_vlc = false;
    flat(&accepted(c.in_picture(), 0, 0, NONE), 0..6, 128);
    // last, run 0, level -1 at place 0: 63 * 16 / 8 = 126
    (c.data, c.header) = (bytes("01111"), Header::intra(8, 0));
    flat(&accepted(c.in_picture(), 5, 5, ONE_PLAIN), 0..4, 126);
    let samples = accepted(c.alone(), 5, 5, ONE_PLAIN);
    flat(&samples, 0..1, 126);
    flat(&samples, 1..6, 128);
}

// A level of -1 is -23 by method 2; 23 / 4 / sqrt(2) = 4.066, times the cosines 0.981, 0.831, 0.556 and 0.195.
#[test]
fn one_level() {
    let wave = [124, 125, 126, 127, 129, 130, 131, 132];
    let mut c = reading("011 01111 011 011 011 11 11", 8, 0);
    let samples = accepted(c.in_picture(), 21, 21, ONE_PLAIN);
    rows_are(&samples, 0..1, wave);
    flat(&samples, 1..6, 128);
    c.context.alternate_vertical_scan = true;
    columns_are(&accepted(c.in_picture(), 21, 21, ONE_PLAIN), 0..1, wave);
    // as a reversible escape
    let mut c = reading("011 00001 1 000000 1 00000000001 1 0000 1 011 011 011 11 11", 8, 0);
    c.context.reversible_vlc = true;
    rows_are(&accepted(c.in_picture(), 46, 46, [0, 0, 0, 0, 1]), 0..1, wave);
}

// Method 1: -1 * 64 * 8 * 2 / 16 = -64 by the entry in row 0, column 1.
#[test]
fn by_the_matrix() {
    let mut c = reading("011 01111 011 011 011 11 11", 8, 0);
    c.method = Method::One;
    c.context.intra_mismatch_exempt = true;
    c.matrix = Matrix([[16; 8]; 8]);
    c.matrix.0[0][1] = 64;
    for answer in [c.in_picture(), c.alone()] {
        let samples = accepted(answer, 21, 21, ONE_PLAIN);
        rows_are(&samples, 0..1, [117, 119, 122, 126, 130, 134, 137, 139]);
        flat(&samples, 1..6, 128);
    }
}

// Value (7,7) becomes 1: 127.5 in chroma goes up where column and row add up to an even number, else down.
#[test]
fn mismatch_control() {
    let mut c = worked().with(|c| c.method = Method::One);
    for answer in [c.in_picture(), c.alone()] {
        let samples = accepted(answer, 16, 16, NONE);
        flat(&samples, 0..4, 128);
        (0..128).for_each(|n| assert_eq!(sample(&samples, 4 + n / 64, n % 8, n / 8 % 8), 128 - ((n % 8 + n / 8) % 2) as i32));
    }
    c.context.intra_mismatch_exempt = true;
    flat(&accepted(c.in_picture(), 16, 16, NONE), 0..6, 128);
}

// A's column at quantiser 16, -1 * 16 / 8 = -2, is -39 at quantiser 8; C's row at 8 is -23.
#[test]
fn neighbours() {
    let mut c = worked();
    c.context.ac_pred_flag = true;
    c.neighbours.qp_a = 16;
    c.neighbours.a_first_column = Some([-1, 0, 0, 0, 0, 0, 0]);
    let samples = accepted(c.alone(), 16, 16, NONE);
    columns_are(&samples, 0..4, [121, 122, 124, 127, 129, 132, 134, 135]);
    columns_are(&samples, 4..6, [121, 122, 124, 126, 129, 131, 133, 134]);
    c.neighbours.fc_dc = 1040;
    c.neighbours.c_first_row = Some([-1, 0, 0, 0, 0, 0, 0]);
    rows_are(&accepted(c.alone(), 16, 16, NONE), 0..6, [126, 127, 128, 129, 131, 132, 133, 134]);
    c.neighbours.c_first_row = None;
    flat(&accepted(c.alone(), 16, 16, NONE), 0..6, 130);
}

// Block 0's level goes down from A, and block 1 takes its column; block 2's goes across from C, which is block 0.
#[test]
fn ac_prediction() {
    let mut c = reading("011 01111 011 011 011 11 11", 8, 0);
    c.context.ac_pred_flag = true;
    let samples = accepted(c.in_picture(), 21, 21, ONE_PLAIN);
    columns_are(&samples, 0..2, [124, 125, 126, 127, 129, 130, 131, 132]);
    flat(&samples, 2..6, 128);
    let higher = [126, 127, 128, 129, 131, 132, 133, 134];
    let mut c = reading("111 011 011 01111 011 11 11", 2, 0);
    c.context.ac_pred_flag = true;
    let samples = accepted(c.in_picture(), 21, 21, ONE_PLAIN);
    flat(&samples, 0..2, 130);
    rows_are(&samples, 2..3, higher);
    flat(&samples, 3..4, 130);
    (c.context.ac_pred_flag, c.context.alternate_vertical_scan) = (false, true);
    columns_are(&accepted(c.in_picture(), 21, 21, ONE_PLAIN), 2..3, higher);
}

// The second macroblock takes its DC from the first; then the picture is complete.
#[test]
fn two_beside_each_other() {
    let c = reading("111 011 011 011 11 11  011 011 011 011 11 11  011", 0, 0);
    let (mut store, mut samples) = ([-7; 2 * STORE], BEFORE);
    let mut picture = Picture::open(2, 1, 8, Method::Two, &mut store).unwrap();
    assert_eq!(
        (picture.width(), picture.height(), picture.bits_per_pixel(), picture.method()),
        (2, 1, 8, Method::Two)
    );
    assert_eq!(picture.due(), Some((0, 0)));
    assert_eq!(c.in_this(&mut picture, &mut samples), Ok(decoded(16, 16, NONE)));
    assert_eq!((picture.accepted(), picture.due()), (1, Some((1, 0))));
    samples = BEFORE;
    assert_eq!(
        c.clone().with(|c| c.at = 16).in_this(&mut picture, &mut samples),
        Ok(decoded(32, 16, NONE))
    );
    flat(&samples, 0..4, 130);
    flat(&samples, 4..6, 128);
    samples = BEFORE;
    let more = c.with(|c| c.at = 32).in_this(&mut picture, &mut samples);
    refused((more, samples), 15, 0, "Complete");
    assert_eq!((picture.accepted(), picture.due()), (2, None));
}

// The worked events: last, each of another spelling.
const P3: &str = "01111";
const P4: &str = "0000011 0 01110";
const P5: &str = "0000011 10 01110";
const P6: &str = "0000011 11 1 000000 1 100000000001 1";

// Not last: run 0, level 1; run 0, level 1 + 27; run 14 + 1, level 1; run 0, level 5.
const PLAIN: &str = "10 0";
const TYPE1: &str = "0000011 0 10 0";
const TYPE2: &str = "0000011 10 10 0";
const TYPE3: &str = "0000011 11 0 000000 1 000000000101 1";

// Reversible: run 0, level 1, not last and last.
const CODE: &str = "110 0";
const LAST_CODE: &str = "1011 0";
const ESCAPE: &str = "00001 0 000000 1 00000000001 1 0000 0";
const LAST_ESCAPE: &str = "00001 1 000000 1 00000000001 1 0000 0";

// Six blocks, and other bits after them; how many bits the six have. Where DC codes are in use each has a DC part of difference 0; a
// block without events is not coded.
fn blocks(lists: [&[&str]; 6], dc_coded: bool, reversible: bool, after: &str) -> (Call, usize) {
    let (mut text, mut pattern) = (String::new(), 0);
    for (i, list) in lists.iter().enumerate() {
        if dc_coded {
            text += if i < 4 { "011" } else { "11" };
        }
        text += &list.concat();
        pattern = 2 * pattern + u8::from(!list.is_empty());
    }
    let bits = text.bytes().filter(|b| *b != b' ').count();
    let mut c = reading(&(text + after), pattern >> 2, pattern & 3);
    (c.context.use_intra_dc_vlc, c.context.reversible_vlc) = (dc_coded, reversible);
    (c, bits)
}

// With DC codes and without, at the end of the data and before bits that would be events, in a picture and alone.
fn each_way(lists: [&[&str]; 6], reversible: bool, events: [u32; 5]) {
    let more = if reversible { [CODE, LAST_ESCAPE] } else { [TYPE1, P5] }.concat();
    for (dc_coded, after) in [(false, ""), (false, &more), (true, ""), (true, &more)] {
        let (c, bits) = blocks(lists, dc_coded, reversible, after);
        accepted(c.in_picture(), bits, bits, events);
        accepted(c.alone(), bits, bits, events);
    }
}

#[test]
fn spellings() {
    each_way([&[]; 6], false, NONE);
    each_way([&[P3], &[], &[], &[], &[], &[]], false, ONE_PLAIN);
    each_way([&[], &[P4], &[], &[], &[], &[]], false, [0, 1, 0, 0, 0]);
    each_way([&[], &[], &[P5], &[], &[], &[]], false, [0, 0, 1, 0, 0]);
    each_way([&[], &[], &[], &[], &[P6], &[]], false, [0, 0, 0, 1, 0]);
    let list = [PLAIN, TYPE1, PLAIN, TYPE2, TYPE3, TYPE3, P4];
    each_way([&list, &[], &[], &[], &[], &[]], false, [2, 2, 1, 2, 0]);
    each_way([&[], &[], &[], &[], &[], &list], false, [2, 2, 1, 2, 0]);
    let last = [PLAIN, PLAIN, PLAIN, TYPE2, TYPE3, P6];
    each_way(
        [&[P3], &[TYPE1, P4], &[P5], &[TYPE3, P3], &[TYPE1, P6], &last],
        false,
        [5, 3, 2, 4, 0],
    );
}

#[test]
fn reversible_spellings() {
    each_way([&[]; 6], true, NONE);
    each_way([&[LAST_CODE], &[], &[], &[], &[], &[]], true, ONE_PLAIN);
    each_way([&[], &[], &[], &[], &[], &[LAST_ESCAPE]], true, [0, 0, 0, 0, 1]);
    each_way(
        [&[], &[CODE, CODE, LAST_CODE], &[], &[], &[CODE, LAST_CODE], &[]],
        true,
        [5, 0, 0, 0, 0],
    );
    let list = [CODE, ESCAPE, CODE, ESCAPE, ESCAPE, LAST_ESCAPE];
    each_way([&[], &[], &[], &list, &[], &[]], true, [2, 0, 0, 0, 4]);
    each_way(
        [
            &[LAST_ESCAPE],
            &[CODE, LAST_CODE],
            &[],
            &list,
            &[ESCAPE, LAST_CODE],
            &[CODE, LAST_CODE],
        ],
        true,
        [7, 0, 0, 0, 6],
    );
}

// Type 2 adds 1 or more to the run: 1 to that of level 11 and, last, of level 6, which have codes of run 0 only.
#[test]
fn most_events() {
    let type_2 = ["0000011 10 00011110 1", "0000011 10 00000000101 0"];
    for (which, reversible, [event, last], most) in [
        (0, false, [PLAIN, P3], 64),
        (1, false, [TYPE1, P4], 64),
        (2, false, type_2, 32),
        (3, false, [TYPE3, P6], 64),
        (0, true, [CODE, LAST_CODE], 64),
        (4, true, [ESCAPE, LAST_ESCAPE], 64),
    ] {
        for dc_coded in [false, true] {
            // a DC code takes place 0
            let n = most - usize::from(dc_coded);
            let list = event.repeat(n - 1) + last;
            let (c, bits) = blocks([&[&list]; 6], dc_coded, reversible, "");
            let mut events = NONE;
            events[which] = 6 * n as u32;
            accepted(c.in_picture(), bits, bits, events);
            accepted(c.alone(), bits, bits, events);
        }
    }
}

// A DC difference of 9 bits, and events in blocks 0 and 1 and in Cb.
#[test]
fn after_a_long_difference() {
    let text = ["00000001 100000000 1", PLAIN, P4, "011", P5, "011 011 11", P6, "11"].concat();
    let c = reading(&text, 12, 2);
    accepted(c.in_picture(), 91, 91, [1, 1, 1, 1, 0]);
    accepted(c.alone(), 91, 91, [1, 1, 1, 1, 0]);
}

// Two macroblocks of 62 and 30 bits, and between them the second cut after the first bit of its event; then one without events.
#[test]
fn one_after_the_other() {
    let text = ["011", PLAIN, P4, "011 011 011 11", P6, "11  011 011 011", P5, "011 11 11"].concat();
    let first = reading(&text, 8, 2);
    let second = first.clone().with(|c| (c.at, c.header) = (62, Header::intra(2, 0)));
    let (mut store, mut samples) = ([-7; 3 * STORE], BEFORE);
    let mut picture = Picture::open(3, 1, 8, Method::Two, &mut store).unwrap();
    assert_eq!(first.in_this(&mut picture, &mut samples), Ok(decoded(62, 62, [1, 1, 0, 1, 0])));
    let cut = second.clone().with(|c| c.data.truncate(9)).in_this(&mut picture, &mut samples);
    assert_eq!(cut, Err(Refusal { number: 17, figure: 0 }));
    assert_eq!(second.in_this(&mut picture, &mut samples), Ok(decoded(92, 30, [0, 0, 1, 0, 0])));
    assert_eq!(worked().in_this(&mut picture, &mut samples), Ok(decoded(16, 16, NONE)));
    accepted(second.alone(), 92, 30, [0, 0, 1, 0, 0]);
    accepted(first.alone(), 62, 62, [1, 1, 0, 1, 0]);
    accepted(worked().alone(), 16, 16, NONE);
}

#[test]
fn bits_that_are_no_sentence() {
    both_refuse(&reading("", 0, 0), 1, 0, "Truncated");
    both_refuse(&reading("0000000000001", 0, 0), 2, 1, "InvalidDcSize");
    both_refuse(&reading("00000001 100000000 0", 0, 0), 3, 0, "MarkerBitMissing");
    both_refuse(&reading("011 0000000000011", 8, 0), 4, 3, "InvalidTcoef");
    both_refuse(&reading("011 0000011 11 1 000000 0", 8, 0), 5, 0, "EscapeMarkerBitMissing");
    both_refuse(
        &reading("011 0000011 11 1 000000 1 000000000000 1", 8, 0),
        6,
        0,
        "ReservedEscapeLevel",
    );
    both_refuse(
        &reading("011 0000011 11 1 000000 1 100000000000 1", 8, 0),
        6,
        0,
        "ReservedEscapeLevel",
    );
    let mut c = reading("011 00001 1 000000 1 00000000001 1 0001 0", 8, 0);
    c.context.reversible_vlc = true;
    both_refuse(&c, 7, 1, "RvlcEscapeDelimiterMissing");
    both_refuse(&reading("011 0000011 11 1 111111 1 000000000001 1", 8, 0), 8, 64, "Overflow");
    let run_63 = "1111111 011 0000011 11 0 111111 1 000000000001 1";
    both_refuse(&reading(run_63, 8, 0).with(|c| c.at = 7), 1, 0, "Truncated");
}

// Bits that end with the data, behind as many others as make up whole bytes.
fn ending(text: &str, cbpy: u8, cbpc: u8, reversible: bool) -> Call {
    let n = text.bytes().filter(|b| *b != b' ').count();
    let at = (8 - n % 8) % 8;
    reading(&("1".repeat(at) + text), cbpy, cbpc).with(|c| (c.at, c.context.reversible_vlc) = (at, reversible))
}

fn left(number: u32, figure: u32, name: &str, reversible: bool, cbpy: u8, texts: &[&str]) {
    for text in texts {
        both_refuse(&ending(text, cbpy, 0, reversible), number, figure, name);
    }
}

const FOUR: &str = "011 011 011 011";

#[test]
fn bits_that_end_inside_a_code() {
    let cut = |reversible, cbpy, texts: &[&str]| left(17, 0, "EndedInsideCode", reversible, cbpy, texts);
    let chroma = [[FOUR, "0"].concat(), [FOUR, "11 0"].concat(), [FOUR, "00000000000"].concat()];
    cut(false, 0, &["0", "01", "0000000000"]);
    cut(false, 0, &chroma.each_ref().map(|text| text.as_str()));
    cut(false, 8, &["011 0", "011 1", "011 00000101000", "011 00000000", "011 000001"]);
    cut(
        false,
        8,
        &["011 0000011 0 000001", "011 0000011 10 000001", "011 0000011 10 00000101000"],
    );
    cut(true, 8, &["011 0000", "011 1", "011 00111111111110", "011 1000000000001"]);
    // a landing of 64 before it is not told
    cut(false, 8, &["011 0000011 11 0 111111 1 000000000001 1 00000000"]);
    cut(true, 8, &["011 00001 0 111111 1 00000000001 1 0000 0 0000"]);
    cut(false, 8, &["011 01111 011 011 0"]);
}

#[test]
fn last_bits_that_begin_no_code() {
    let dc = |figure, texts: &[&str]| left(2, figure, "InvalidDcSize", false, 0, texts);
    dc(0, &["00000000000", &[FOUR, "000000000000"].concat()]);
    dc(1, &["000000000001"]);
    let event = |figure, reversible, texts: &[&str]| left(4, figure, "InvalidTcoef", reversible, 8, texts);
    event(0, false, &["011 000000000", "011 0000011 0 000000000"]);
    event(3, false, &["011 0000011 0 0000011", "011 0000011 10 0000011"]);
    event(0, false, &["011 0000011 11 0 111111 1 000000000001 1 000000000"]);
    event(0, true, &["011 00000", "011 00001 0 111111 1 00000000001 1 0000 0 00000"]);
    event(4095, true, &["011 00111111111111"]);
    event(4096, true, &["011 1000000000000"]);
}

#[test]
fn last_bits_inside_a_field() {
    let field = |reversible, texts: &[&str]| left(1, 0, "Truncated", reversible, 8, texts);
    field(false, &["", "011", "10 1", "00000001 100000000"]);
    field(
        false,
        &[
            "011 0111",
            "011 0000011",
            "011 0000011 0",
            "011 0000011 1",
            "011 0000011 10",
            "011 0000011 11",
        ],
    );
    field(
        false,
        &["011 0000011 11 1 000000 1 00000000000", "011 0000011 11 0 111111 1 000000000001 1"],
    );
    field(true, &["011 1011", "011 00001", "011 00001 1 000000 1 00000000000 1 0000"]);
}

// Block 0 and Cb coded, cut before each bit: 17 after the first bit of a code, which stands in brackets here, else 1.
fn cut_anywhere(text: &str, reversible: bool, events: [u32; 5]) {
    let (mut bits, mut inside) = (String::new(), 0);
    for b in text.chars() {
        match b {
            '(' => inside = 1,
            ')' => inside = 0,
            '0' | '1' => {
                let (number, name) = if inside > 1 { (17, "EndedInsideCode") } else { (1, "Truncated") };
                both_refuse(&ending(&bits, 8, 2, reversible), number, 0, name);
                bits.push(b);
                inside += u32::from(inside > 0);
            }
            _ => (),
        }
    }
    let whole = ending(&bits, 8, 2, reversible);
    accepted(whole.in_picture(), whole.at + bits.len(), bits.len(), events);
    accepted(whole.alone(), whole.at + bits.len(), bits.len(), events);
}

#[test]
fn a_good_macroblock_cut_anywhere() {
    let plain = "(00000001) 100000000 1 (10) 0 (0000011) 0 (0111) 0 (011) (10) 01 (00001) 100000 (11) (0000011) 10 (10) 0 \
                 (0000011) 11 1 000000 1 100000000001 1 (01) 11";
    cut_anywhere(plain, false, [1, 1, 1, 1, 0]);
    let reversible = "(011) (110) 0 (1011) 0 (011) (011) (011) (11) (00001) 0 000000 1 00000000001 1 0000 0 \
                      (00001) 1 000000 1 00000000001 1 0000 0 (11)";
    cut_anywhere(reversible, true, [2, 0, 0, 0, 2]);
}

#[test]
fn headers() {
    for mb_type in [
        MbType::Missing,
        MbType::Inter,
        MbType::InterQ,
        MbType::Inter4V,
        MbType::Intra,
        MbType::IntraQ,
    ] {
        let c = worked().with(|c| c.header = Header { mb_type, ..c.header });
        if !matches!(mb_type, MbType::Intra | MbType::IntraQ) {
            both_refuse(&c, 10, 0, "NotIntra");
        }
        both_refuse(&c.with(|c| c.header.not_coded = true), 9, 0, "NotCoded");
    }
}

#[test]
fn ranges() {
    both_refuse(&worked().with(|c| c.at = 17), 11, 0, "OutOfRange");
    both_refuse(&worked().with(|c| c.at = usize::MAX), 11, 0, "OutOfRange");
    both_refuse(&worked().with(|c| c.data = vec![0; 1_048_577]), 11, 0, "OutOfRange");
    both_refuse(&worked().with(|c| c.data = vec![0; 1_048_576]), 2, 0, "InvalidDcSize");
    for quantiser in [0, 32, u32::MAX] {
        both_refuse(&worked().with(|c| c.context.quantiser_scale = quantiser), 12, 0, "Context");
    }
    for depth in [0, 3, 13, u32::MAX] {
        both_refuse(&worked().with(|c| c.bits_per_pixel = depth), 12, 0, "Context");
    }
    let mut c = worked().with(|c| c.matrix.0[7][7] = 0);
    flat(&accepted(c.in_picture(), 16, 16, NONE), 0..6, 128);
    c.method = Method::One;
    both_refuse(&c, 12, 0, "Context");
}

#[test]
fn neighbours_out_of_range() {
    let changes: [fn(&mut Neighbours); 9] = [
        |n| n.fa_dc = 65537,
        |n| n.fb_dc = -65537,
        |n| n.fc_dc = i32::MIN,
        |n| n.qp_a = 0,
        |n| n.qp_a = u32::MAX,
        |n| n.qp_c = 32,
        |n| n.qp_c = 1 << 31,
        |n| n.a_first_column = Some([0, 0, 0, 0, 0, 0, 2048]),
        |n| n.c_first_row = Some([-2049, 0, 0, 0, 0, 0, 0]),
    ];
    for change in changes {
        refused(worked().with(|c| change(&mut c.neighbours)).alone(), 13, 0, "Predictor");
    }
    assert_eq!(Neighbours::outside(12, 5).fb_dc, 16384);
}

// The worked case with its header.
const WORKED: &str = "1 0 0011 011 011 011 011 11 11";

fn intra(cbpc: u8, ac_pred_flag: bool, cbpy: u8, quantiser_scale: u32) -> HeaderFields {
    header(0, cbpc, ac_pred_flag, cbpy, quantiser_scale).1
}

// With its header in the bits, in a picture and alone.
fn both_accept(c: &Call, position: usize, bits: usize, fields: HeaderFields, events: [u32; 5]) -> Samples {
    let (result, samples) = c.whole_in_picture();
    assert_eq!(result, Ok((fields, decoded(position, bits, events))));
    assert_eq!(c.whole_alone(), (result, samples));
    samples
}

#[test]
fn worked_case_with_header() {
    assert_eq!(bytes(WORKED), [0x8D, 0xB6, 0xFC]);
    let c = reading(WORKED, 0, 0);
    flat(&both_accept(&c, 22, 22, intra(0, false, 0, 8), NONE), 0..6, 128);
    assert_eq!(
        parse_macroblock_header(&c.data, 0, 8),
        Ok((intra(0, false, 0, 8), decoded(6, 6, NONE)))
    );
    // stuffing before it, once and 1,000 times
    let c = reading(&["10110", STUFFING, WORKED, "0101"].concat(), 0, 0).with(|c| c.at = 5);
    flat(&both_accept(&c, 36, 31, intra(0, false, 0, 8), NONE), 0..6, 128);
    let c = reading(&(STUFFING.repeat(1000) + WORKED), 0, 0);
    flat(&both_accept(&c, 9022, 9022, intra(0, false, 0, 8), NONE), 0..6, 128);
    // no DC codes and no block coded: the header is all
    let mut c = ending("1 0 0011", 0, 0, false);
    c.context.use_intra_dc_vlc = false;
    flat(&both_accept(&c, 8, 6, intra(0, false, 0, 8), NONE), 0..6, 128);
}

#[test]
fn every_header() {
    for n in 0..8 * 16 * DQUANT.len() {
        let (k, cbpy, ac_pred_flag, cbpc) = (n >> 7, (n >> 3 & 15) as u8, n >> 2 & 1 == 1, (n & 3) as u8);
        let (text, fields) = header(k, cbpc, ac_pred_flag, cbpy, 8u32.wrapping_add_signed(DQUANT[k].1));
        for after in ["", "000000000", "111111111"] {
            let c = ending(&[&text, after].concat(), 0, 0, false);
            let due = decoded(c.at + text.len(), text.len(), NONE);
            assert_eq!(parse_macroblock_header(&c.data, c.at, 8), Ok((fields, due)));
        }
        assert_eq!(
            fields.header(),
            Header {
                mb_type: fields.mb_type,
                ..Header::intra(cbpy, cbpc)
            }
        );
    }
}

// A level of -1 is 3, 5, 9 and 11 at quantisers 1 to 4: the first wave of 0.53, 0.88, 1.59, 1.94 beside 128. At 28 to 31 the luma scaler
// is 40, 42, 44, 46: 26 * 40 / 8 = 130, 24 * 42 / 8 = 126, 23 * 44 / 8 = 126.5, 22 * 46 / 8 = 126.5; the chroma scaler is 22 to 25:
// 47 * 22 / 8 = 129.25, 45 * 23 / 8 = 129.375, 43 * 24 / 8 = 129, 41 * 25 / 8 = 128.125.
#[test]
fn dquant_near_the_limits() {
    let waves = [
        [127, 128, 128, 128, 128, 128, 128, 129],
        [127, 127, 128, 128, 128, 128, 129, 129],
        [126, 127, 127, 128, 128, 129, 129, 130],
        [126, 126, 127, 128, 128, 129, 130, 130],
    ];
    let (luma, chroma) = ([130, 126, 127, 127], [129, 129, 129, 128]);
    for (before, after) in [(1, [1, 1, 2, 3]), (2, [1, 1, 3, 4]), (30, [29, 28, 31, 31]), (31, [30, 29, 31, 31])] {
        for (k, q) in (1..).zip(after) {
            let at = |c: &mut Call| c.context.quantiser_scale = before;
            if q < 5 {
                let (text, fields) = header(k, 0, false, 8, q);
                let c = reading(&(text + "011 01111 011 011 011 11 11"), 0, 0).with(at);
                let samples = both_accept(&c, 33, 33, fields, ONE_PLAIN);
                rows_are(&samples, 0..1, waves[q as usize - 1]);
                flat(&samples, 1..6, 128);
            } else {
                let (text, fields) = header(k, 0, false, 0, q);
                let c = reading(&(text + "011 011 011 011 11 11"), 0, 0).with(at);
                let samples = both_accept(&c, 27, 27, fields, NONE);
                flat(&samples, 0..4, luma[q as usize - 28]);
                flat(&samples, 4..6, chroma[q as usize - 28]);
            }
        }
    }
}

// The header's flag counts and the context's does not: the values are those of `neighbours` and `ac_prediction`.
#[test]
fn flag_of_the_header() {
    for flag in [false, true] {
        let mut c = reading("1 1 0011 011 011 011 011 11 11", 0, 0);
        c.context.ac_pred_flag = flag;
        c.neighbours.qp_a = 16;
        c.neighbours.a_first_column = Some([-1, 0, 0, 0, 0, 0, 0]);
        let (result, samples) = c.whole_alone();
        assert_eq!(result, Ok((intra(0, true, 0, 8), decoded(22, 22, NONE))));
        columns_are(&samples, 0..4, [121, 122, 124, 127, 129, 132, 134, 135]);
        columns_are(&samples, 4..6, [121, 122, 124, 126, 129, 131, 133, 134]);
        c.data = bytes(WORKED);
        flat(&c.whole_alone().1, 0..6, 128);
        let wave = [124, 125, 126, 127, 129, 130, 131, 132];
        c.data = bytes("1 1 00010 011 01111 011 011 011 11 11");
        let (result, samples) = c.whole_in_picture();
        assert_eq!(result, Ok((intra(0, true, 8, 8), decoded(28, 28, ONE_PLAIN))));
        columns_are(&samples, 0..2, wave);
        flat(&samples, 2..6, 128);
        c.data = bytes("1 0 00010 011 01111 011 011 011 11 11");
        rows_are(&c.whole_in_picture().1, 0..1, wave);
    }
}

// The first goes from 10 to 12: both scalers give 1020, 127.5, and the level -3 of block 1, scanned down, is 12 * 7 - 1 = 83, a wave of
// 14.67. The second goes from 12 to 10 and takes it for its first two blocks as -3 * 12 / 10 = -3.6, -4, which is 10 * 9 - 1 = 89, a wave
// of 15.73, beside 57 * 18 / 8 = 128.25; from a quantiser of 10 it would be -3. The rest takes zeros, and the chroma is 93 * 11 / 8 =
// 127.875.
#[test]
fn quantiser_of_the_header() {
    let text = "0001 1 00011 11  011 011 0000011 11 1 000000 1 111111111101 1 011 011 11 11  0001 1 0011 01  011 011 011 011 11 11";
    let data = bytes(text);
    let (mut store, mut samples, matrix) = ([-7; 2 * STORE], BEFORE, Matrix::default());
    let mut picture = Picture::open(2, 1, 8, Method::Two, &mut store).unwrap();
    let (fields, read) = picture
        .decode_macroblock_with_header(&data, 0, Context::new(10), &matrix, &mut samples)
        .unwrap();
    assert_eq!((fields, read), (header(4, 0, true, 4, 12).1, decoded(58, 58, [0, 0, 0, 1, 0])));
    flat(&samples, 0..1, 128);
    columns_are(&samples, 1..2, [113, 115, 119, 125, 130, 136, 140, 142]);
    flat(&samples, 2..6, 128);
    // refused in between: after 0001, 1 and 0, which begins cbpy; and no header
    let cut = picture.decode_macroblock_with_header(&data[..8], 58, Context::new(12), &matrix, &mut samples);
    assert_eq!(cut, Err(Refusal { number: 17, figure: 0 }));
    let bad = picture.decode_macroblock_with_header(&[0, 0], 0, Context::new(12), &matrix, &mut samples);
    assert_eq!(bad, Err(Refusal { number: 16, figure: 0 }));
    assert_eq!(picture.due(), Some((1, 0)));
    let context = Context::new(fields.quantiser_scale);
    let second = picture.decode_macroblock_with_header(&data, read.position, context, &matrix, &mut samples);
    assert_eq!(second, Ok((header(2, 0, true, 0, 10).1, decoded(85, 27, NONE))));
    columns_are(&samples, 0..2, [113, 115, 120, 125, 131, 137, 141, 144]);
    flat(&samples, 2..6, 128);
    assert_eq!(picture.due(), None);

    // the same with the headers handed in
    let (mut other, mut left) = ([-7; 2 * STORE], BEFORE);
    let mut picture = Picture::open(2, 1, 8, Method::Two, &mut other).unwrap();
    for (at, bits, fields) in [(12, 46, fields), (69, 16, second.unwrap().0)] {
        let mut context = Context::new(fields.quantiser_scale);
        context.ac_pred_flag = fields.ac_pred_flag;
        let read = picture.decode_macroblock(&data, at, fields.header(), context, &matrix, &mut left);
        assert_eq!(read.map(|d| d.bits), Ok(bits));
    }
    assert!(left == samples && other == store);
}

// By all three calls that read a header.
fn no_header(c: &Call, number: u32, name: &str) {
    for (result, samples) in [c.whole_in_picture(), c.whole_alone()] {
        refused((result.map(|(_, decoded)| decoded), samples), number, 0, name);
    }
    let read = parse_macroblock_header(&c.data, c.at, c.context.quantiser_scale);
    assert_eq!(read, Err(Refusal { number, figure: 0 }));
}

// 17 after the first bit of a code, which stands in brackets here, else 1.
fn header_cut_anywhere(text: &str) {
    let (mut bits, mut inside) = (String::new(), 0);
    for b in text.chars() {
        match b {
            '(' => inside = 1,
            ')' => inside = 0,
            '0' | '1' => {
                let (number, name) = if inside > 1 { (17, "EndedInsideCode") } else { (1, "Truncated") };
                no_header(&ending(&bits, 0, 0, false), number, name);
                bits.push(b);
                inside += u32::from(inside > 0);
            }
            _ => (),
        }
    }
}

#[test]
fn headers_cut_anywhere() {
    for n in 0..8 * 16 {
        let (changes, cbpc, cbpy) = (n >> 2 & 1, n & 3, n >> 3);
        let stuffing = format!("({STUFFING})").repeat(n % 3);
        let dquant = ["", "01"][changes];
        header_cut_anywhere(&format!("{stuffing}({}) {} ({}) {dquant}", MCBPC[changes][cbpc], n & 1, CBPY[cbpy]));
    }
}

#[test]
fn bits_that_begin_no_header() {
    for text in ["0000001", "00000001", "000000000", "1 0 00000", "011 1 000001", "0001 1 000000"] {
        for (before, after) in [("", ""), ("", WORKED), (STUFFING, ""), (STUFFING, "000000000")] {
            no_header(&ending(&[before, text, after].concat(), 0, 0, false), 16, "InvalidHeader");
        }
    }
    for text in ["", STUFFING, "1", "0001", "001 1", "0001 0 11", "0001 0 11 1"] {
        no_header(&ending(text, 0, 0, false), 1, "Truncated");
    }
    for text in [
        "0",
        "01",
        "00000",
        "00001",
        "000000",
        "0000000",
        "00000000",
        "1 0 0",
        "1 0 101",
        "1 0 0000",
        "000011 1 00001",
    ] {
        no_header(&ending(text, 0, 0, false), 17, "EndedInsideCode");
        no_header(&ending(&[STUFFING, text].concat(), 0, 0, false), 17, "EndedInsideCode");
    }
}

// The state is asked before the header, and the header before the blocks.
#[test]
fn state_before_the_header() {
    let c = reading("0000001", 0, 0);
    no_header(&c.clone().with(|c| (c.at, c.context.quantiser_scale) = (9, 0)), 11, "OutOfRange");
    no_header(&c.clone().with(|c| c.at = usize::MAX), 11, "OutOfRange");
    no_header(&c.clone().with(|c| c.data = vec![0; 1_048_577]), 11, "OutOfRange");
    no_header(&c.clone().with(|c| c.data = vec![0; 1_048_576]), 16, "InvalidHeader");
    for quantiser in [0, 32, u32::MAX] {
        no_header(&c.clone().with(|c| c.context.quantiser_scale = quantiser), 12, "Context");
    }
    let whole_alone = |c: Call| {
        let (result, samples) = c.whole_alone();
        (result.map(|(_, decoded)| decoded), samples)
    };
    refused(whole_alone(c.clone().with(|c| c.bits_per_pixel = 3)), 12, 0, "Context");
    refused(whole_alone(c.clone().with(|c| c.neighbours.fa_dc = 65537)), 13, 0, "Predictor");
    refused(whole_alone(c.clone().with(|c| c.neighbours.qp_c = 0)), 13, 0, "Predictor");
    refused(whole_alone(c.clone()), 16, 0, "InvalidHeader");
    refused(whole_alone(reading("1 0 00010 0000000000001", 0, 0)), 2, 1, "InvalidDcSize");
    refused(whole_alone(reading("1 0 00000 0000000000001", 0, 0)), 16, 0, "InvalidHeader");
    let (mut store, mut samples) = ([-7; 2 * STORE - 1], BEFORE);
    let mut picture = Picture::open(2, 1, 8, Method::Two, &mut store).unwrap();
    assert_eq!(c.whole_in_this(&mut picture, &mut samples), Err(Refusal { number: 14, figure: 0 }));
    let mut store = [-7; STORE];
    let mut picture = Picture::open(1, 1, 8, Method::Two, &mut store).unwrap();
    assert!(reading(WORKED, 0, 0).whole_in_this(&mut picture, &mut samples).is_ok());
    assert_eq!(c.whole_in_this(&mut picture, &mut samples), Err(Refusal { number: 15, figure: 0 }));
}

// The C functions with DC codes, and header and answer of any length: the header by itself, in a picture and alone. What they give; where
// they refuse, nothing is written but the answer.
#[rustfmt::skip]
fn raw_with_header(c: &Call, flags: u32, header: usize, answer: usize) -> [(u32, [i32; 8], [usize; 12]); 3] {
    let (data, len, at, q, matrix) = (c.data.as_ptr(), c.data.len(), c.at, c.context.quantiser_scale, c.matrix.0.as_ptr().cast());
    let mut neighbours = [0; 21];
    neighbours[..5].copy_from_slice(&[1024, 1024, 1024, 8, 8]);
    let (mut state, mut store, mut samples) = ([1, 1, 8, 0, 0], [-7; STORE], [BEFORE; 2]);
    let mut all = [(0, [7; 8], [7; 12]); 3];
    let [parse, picture, alone] = &mut all;
    unsafe {
        parse.0 = ffi::vaxembro_parse_macroblock_header(
            data, len, at, q, parse.1.as_mut_ptr(), header, parse.2.as_mut_ptr(), answer,
        );
        picture.0 = ffi::vaxembro_decode_macroblock_with_header(
            state.as_mut_ptr(), 5, data, len, at, q, flags, matrix, 64, samples[0].as_mut_ptr(), 384,
            store.as_mut_ptr(), STORE, picture.1.as_mut_ptr(), header, picture.2.as_mut_ptr(), answer,
        );
        alone.0 = ffi::vaxembro_decode_intra_macroblock_with_header(
            data, len, at, q, 8, flags, neighbours.as_ptr(), 21, matrix, 64, samples[1].as_mut_ptr(), 384,
            alone.1.as_mut_ptr(), header, alone.2.as_mut_ptr(), answer,
        );
    }
    assert!(picture.0 == 0 || (state, store, samples[0]) == ([1, 1, 8, 0, 0], [-7; STORE], BEFORE));
    assert!(alone.0 == 0 || samples[1] == BEFORE);
    assert!(all.iter().all(|one| one.0 == 0 || one.1 == [7; 8]));
    all
}

#[test]
fn headers_of_every_length() {
    let c = reading(WORKED, 0, 0);
    // flags of a macroblock that is not coded, and of AC prediction, are not looked at
    for (flags, header, answer) in [(32, 6, 9), (33, 7, 10), (34, 8, 11), (35, 6, 12)] {
        let all = raw_with_header(&c, flags, header, answer);
        for (one, bits) in all.iter().zip([6, 22, 22]) {
            assert_eq!(*one, (0, [4, 0, 0, 0, 0, 8, 7, 7], [0, 0, bits, bits, 0, 0, 0, 0, 0, 7, 7, 7]));
        }
    }
    let bad = c.clone().with(|c| (c.at, c.context.quantiser_scale) = (usize::MAX, 0));
    for header in 0..6 {
        for c in [&c, &bad] {
            for one in raw_with_header(c, 32, header, 9) {
                assert_eq!(one.2, [14, 0, 0, c.at, 0, 0, 0, 0, 0, 7, 7, 7]);
            }
            for one in raw_with_header(c, 32, header, 8) {
                assert_eq!(one, (14, [7; 8], [7; 12]));
            }
        }
    }
    for answer in 0..9 {
        for one in raw_with_header(&c, 32, 6, answer) {
            assert_eq!(one, (14, [7; 8], [7; 12]));
        }
    }
    for one in raw_with_header(&reading("000000000", 0, 0), 32, 6, 9) {
        assert_eq!(one, (16, [7; 8], [16, 0, 0, 0, 0, 0, 0, 0, 0, 7, 7, 7]));
    }
}

#[test]
fn header_lent_nothing() {
    let (no_data, no_header, no_answer) = (std::ptr::null(), std::ptr::null_mut(), std::ptr::null_mut());
    let (mut header, mut answer) = ([7; 6], [7; 9]);
    unsafe {
        assert_eq!(
            ffi::vaxembro_parse_macroblock_header(no_data, 0, 0, 8, header.as_mut_ptr(), 6, answer.as_mut_ptr(), 9),
            1
        );
        assert_eq!((header, answer), ([7; 6], [1, 0, 0, 0, 0, 0, 0, 0, 0]));
        assert_eq!(
            ffi::vaxembro_parse_macroblock_header(no_data, 0, 3, 8, no_header, 0, answer.as_mut_ptr(), 9),
            14
        );
        assert_eq!(answer, [14, 0, 0, 3, 0, 0, 0, 0, 0]);
        assert_eq!(
            ffi::vaxembro_parse_macroblock_header(no_data, 0, 0, 8, no_header, 0, no_answer, 0),
            14
        );
    }
}

// The C functions, with DC codes and an answer of any length.
#[rustfmt::skip]
fn raw_in_picture(c: &Call, state: &mut [u32], store: &mut [i32], samples: &mut Samples, answer: &mut [usize]) -> u32 {
    unsafe {
        ffi::vaxembro_decode_macroblock(
            state.as_mut_ptr(), state.len(), c.data.as_ptr(), c.data.len(), c.at, c.header.mb_type as u32, c.header.cbpy, c.header.cbpc,
            c.context.quantiser_scale, 32, c.matrix.0.as_ptr().cast(), 64, samples.as_mut_ptr(), samples.len(),
            store.as_mut_ptr(), store.len(), answer.as_mut_ptr(), answer.len(),
        )
    }
}

#[rustfmt::skip]
fn raw_alone(c: &Call, samples: &mut Samples, answer: &mut [usize]) -> u32 {
    let mut neighbours = [0; 21];
    neighbours[..5].copy_from_slice(&[1024, 1024, 1024, 8, 8]);
    unsafe {
        ffi::vaxembro_decode_intra_macroblock(
            c.data.as_ptr(), c.data.len(), c.at, c.header.mb_type as u32, c.header.cbpy, c.header.cbpc, c.context.quantiser_scale,
            c.bits_per_pixel, 32, neighbours.as_ptr(), neighbours.len(), c.matrix.0.as_ptr().cast(), 64,
            samples.as_mut_ptr(), samples.len(), answer.as_mut_ptr(), answer.len(),
        )
    }
}

// A picture and a store that no call of the wrapper leaves.
#[test]
fn store_out_of_range() {
    let (mut state, mut store, mut samples, mut answer) = ([2, 1, 8, 0, 1], [65537; 2 * STORE], BEFORE, [7; 9]);
    let number = raw_in_picture(&worked(), &mut state, &mut store, &mut samples, &mut answer);
    refused((Err(Refusal { number, figure: 0 }), samples), 13, 0, "Predictor");
    assert_eq!(
        (state, store, answer),
        ([2, 1, 8, 0, 1], [65537; 2 * STORE], [13, 0, 0, 0, 0, 0, 0, 0, 0])
    );
    assert_eq!(unsafe { ffi::vaxembro_number(answer.as_ptr(), 9) }, 13);
    assert_eq!(unsafe { ffi::vaxembro_number(answer.as_ptr(), 8) }, 0);
}

// Both calls with an answer of so many numbers, out of twelve: what they give, and what they leave in the twelve. Where they refuse,
// nothing else is written.
fn with_answer(c: &Call, len: usize) -> (u32, [usize; 12]) {
    let (mut state, mut store, mut samples, mut answer) = ([1, 1, 8, 0, 0], [-7; STORE], BEFORE, [7; 12]);
    let number = raw_in_picture(c, &mut state, &mut store, &mut samples, &mut answer[..len]);
    assert!(number == 0 || (state, store, samples) == ([1, 1, 8, 0, 0], [-7; STORE], BEFORE));
    let (mut samples, mut alone) = (BEFORE, [7; 12]);
    assert_eq!(raw_alone(c, &mut samples, &mut alone[..len]), number);
    assert!(number == 0 || samples == BEFORE);
    assert_eq!(alone, answer);
    (number, answer)
}

// Too short an answer is not written, and a longer one keeps its rest; a refusal counts no event.
#[test]
fn answers_of_every_length() {
    let c = reading(&["011", PLAIN, P4, "011 011 011 11", P6, "11"].concat(), 8, 2);
    let bad = c.clone().with(|c| c.context.quantiser_scale = 0);
    // no DC code after the events of block 0
    let broken = reading(&["011", PLAIN, P4, "0000000000001"].concat(), 8, 0);
    for len in 0..9 {
        for c in [&c, &bad, &broken] {
            assert_eq!(with_answer(c, len), (14, [7; 12]));
        }
    }
    for len in 9..=12 {
        assert_eq!(with_answer(&c, len), (0, [0, 0, 62, 62, 1, 1, 0, 1, 0, 7, 7, 7]));
        assert_eq!(with_answer(&bad, len), (12, [12, 0, 0, 0, 0, 0, 0, 0, 0, 7, 7, 7]));
        assert_eq!(with_answer(&broken, len), (2, [2, 1, 0, 0, 0, 0, 0, 0, 0, 7, 7, 7]));
    }
}

#[test]
fn spelling_read_out() {
    let answer = [1, 2, 3, 4, 5, 6, 7, 8, 9, 10];
    let of = |len, which| unsafe { ffi::vaxembro_spelling(answer.as_ptr(), len, which) };
    assert_eq!([0, 1, 2, 3, 4].map(|which| of(9, which)), [5, 6, 7, 8, 9]);
    assert_eq!([0, 1, 2, 3, 4].map(|which| of(10, which)), [5, 6, 7, 8, 9]);
    for which in [5, 255, 1 << 31, u32::MAX - 3, u32::MAX] {
        assert_eq!(of(10, which), 0);
    }
    for which in 0..6 {
        (0..9).for_each(|len| assert_eq!(of(len, which), 0));
        assert_eq!(unsafe { ffi::vaxembro_spelling(std::ptr::null(), 0, which) }, 0);
    }
}

#[test]
fn store_too_short() {
    let (mut store, mut samples) = ([-7; 2 * STORE - 1], BEFORE);
    let mut picture = Picture::open(2, 1, 8, Method::Two, &mut store).unwrap();
    let result = worked().in_this(&mut picture, &mut samples);
    refused((result, samples), 14, 0, "TooShort");
    assert_eq!((picture.accepted(), store), (0, [-7; 2 * STORE - 1]));
}

#[test]
fn openings() {
    let opened = |width, height, depth| Picture::open(width, height, depth, Method::One, &mut []).map(|p| (p.due(), p.method()));
    assert_eq!(opened(1, 1, 4), Ok((Some((0, 0)), Method::One)));
    assert_eq!(opened(45, 36, 12), Ok((Some((0, 0)), Method::One)));
    for (width, height) in [(0, 1), (46, 1), (1, 0), (1, 37), (u32::MAX, u32::MAX)] {
        assert_eq!(opened(width, height, 3), Err(Refusal { number: 11, figure: 0 }));
    }
    assert_eq!(opened(45, 36, 3), Err(Refusal { number: 12, figure: 0 }));
    assert_eq!(opened(1, 1, 13), Err(Refusal { number: 12, figure: 0 }));
}

#[test]
fn refusals_told() {
    let told = |number, figure| -> String {
        let error: Box<dyn Error> = Refusal { number, figure }.into();
        error.to_string()
    };
    assert_eq!(told(1, 0), "refused by 1 Truncated");
    assert_eq!(told(2, 5), "refused by 2 InvalidDcSize, window 5");
    assert_eq!(told(8, 64), "refused by 8 Overflow, landing 64");
    assert_eq!(told(15, 0), "refused by 15 Complete");
    assert_eq!(told(16, 0), "refused by 16 InvalidHeader");
    assert_eq!(told(17, 0), "refused by 17 EndedInsideCode");
}

#[test]
fn stopped() {
    let by: Vec<u32> = (0..=20).filter(|&number| Refusal { number, figure: 0 }.stopped()).collect();
    assert_eq!(by, [1, 17]);
    assert!(ending("0", 0, 0, false).alone().0.unwrap_err().stopped());
    assert!(!ending("00000000000", 0, 0, false).alone().0.unwrap_err().stopped());
}
