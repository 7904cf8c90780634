// The calls that are made, prepared once: whole sentences, cut and flipped ones, random bytes, and what each number refuses; half of them
// with the header in the bits.
use crate::common::bits::{Bits, any_bytes, bytes_of, flip, push};
use crate::common::dice::Dice;
use crate::common::sentence::{self, Sentence, Spellings};
use crate::headers::{Fields, Header, STUFFING, bits_of};
use vaxembro::ffi;

pub const MOST_BYTES: usize = 1_048_576;

// How many numbers an answer has, and how many are kept for it.
pub const ANSWER: usize = 9;
pub type Answer = [usize; ANSWER + 2];

// How many numbers a header has, and how many are kept for it.
pub const HEADER: usize = 6;
pub type LentHeader = [i32; HEADER + 2];

pub const NOT_CODED: u32 = 1;
pub const AC_PRED: u32 = 2;
pub const USE_INTRA_DC_VLC: u32 = 32;
pub const REVERSIBLE_VLC: u32 = 64;
pub const QUANT_TYPE: u32 = 128;

// A number (0: accepted), its figure, how many bits were read, and how many events of each spelling.
#[derive(Clone, Copy, Debug, Default, PartialEq)]
pub struct Outcome {
    pub number: u32,
    pub figure: u32,
    pub bits: usize,
    pub spellings: Spellings,
}

pub fn refused(number: u32) -> Outcome {
    Outcome {
        number,
        ..Outcome::default()
    }
}

#[derive(Clone, Debug)]
pub struct Call {
    pub data: &'static [u8],
    pub at: usize,
    pub mb_type: u32,
    pub cbpy: u8,
    pub cbpc: u8,
    pub quantiser_scale: u32,
    pub bits_per_pixel: u32,
    pub flags: u32,
    pub neighbours: [i32; 21],
    pub matrix: [u8; 64],
    // how many numbers are lent, of the store at most
    pub neighbours_len: usize,
    pub matrix_len: usize,
    pub state_len: usize,
    pub samples_len: usize,
    pub store_len: usize,
    pub header_len: usize,
    pub answer_len: usize,
    // whether its header is in the bits
    pub with_header: bool,
    // what a header at its position gives where nothing is refused before it, and what is read of it
    pub header: Outcome,
    pub fields: Fields,
    // what its bits give where nothing is refused before them
    pub bits: Outcome,
    // the call of the blocks after a header that is in the bits and is read, with that header handed in
    pub after: Option<Box<Call>>,
    // the samples of an accepted macroblock alone
    pub alone: Vec<i32>,
}

impl Call {
    // Document 01's number by the state, before any bit, of the call alone.
    pub fn alone_due(&self) -> Outcome {
        if self.neighbours_len < 21 || self.too_short() {
            return refused(14);
        }
        if !self.data_fine() {
            return refused(11);
        }
        if !self.context_fine(self.bits_per_pixel, self.flags & QUANT_TYPE != 0) {
            return refused(12);
        }
        let n = &self.neighbours;
        let seven_fine = |there: i32, seven: &[i32]| there == 0 || seven.iter().all(|z| (-2048..=2047).contains(z));
        let dcs = n[..3].iter().all(|z| (-65536..=65536).contains(z));
        let quantisers = n[3..5].iter().all(|q| (1..=31).contains(q));
        if !dcs || !quantisers || !seven_fine(n[5], &n[7..14]) || !seven_fine(n[6], &n[14..]) {
            return refused(13);
        }
        if self.samples_len < 384 {
            return refused(14);
        }
        self.read_due()
    }

    // Of the header by itself.
    pub fn header_due(&self) -> Outcome {
        if self.header_len < HEADER || self.answer_len < ANSWER {
            return refused(14);
        }
        if !self.data_fine() {
            return refused(11);
        }
        if !(1..=31).contains(&self.quantiser_scale) {
            return refused(12);
        }
        self.header
    }

    // Whether lent memory is too short, but for that which one kind of call takes.
    pub fn too_short(&self) -> bool {
        self.matrix_len < 64 || self.answer_len < ANSWER || self.with_header && self.header_len < HEADER
    }

    pub fn data_fine(&self) -> bool {
        self.data.len() <= MOST_BYTES && self.at <= 8 * self.data.len()
    }

    pub fn context_fine(&self, depth: u32, method_1: bool) -> bool {
        (1..=31).contains(&self.quantiser_scale) && (4..=12).contains(&depth) && !(method_1 && self.matrix.contains(&0))
    }

    // 9, 10 of a header that is handed in, and then what the bits give.
    pub fn read_due(&self) -> Outcome {
        match (self.flags & NOT_CODED, self.mb_type) {
            _ if self.with_header => self.bits,
            (0, 4 | 5) => self.bits,
            (0, _) => refused(10),
            _ => refused(9),
        }
    }

    pub fn make_header(&self, header: &mut LentHeader, answer: &mut Answer) -> u32 {
        unsafe {
            ffi::vaxembro_parse_macroblock_header(
                self.data.as_ptr(),
                self.data.len(),
                self.at,
                self.quantiser_scale,
                header.as_mut_ptr(),
                self.header_len,
                answer.as_mut_ptr(),
                self.answer_len,
            )
        }
    }

    pub fn make_alone(&self, samples: &mut [i32], header: &mut LentHeader, answer: &mut Answer) -> u32 {
        if self.with_header {
            return unsafe {
                ffi::vaxembro_decode_intra_macroblock_with_header(
                    self.data.as_ptr(),
                    self.data.len(),
                    self.at,
                    self.quantiser_scale,
                    self.bits_per_pixel,
                    self.flags,
                    self.neighbours.as_ptr(),
                    self.neighbours_len,
                    self.matrix.as_ptr(),
                    self.matrix_len,
                    samples.as_mut_ptr(),
                    self.samples_len.min(samples.len()),
                    header.as_mut_ptr(),
                    self.header_len,
                    answer.as_mut_ptr(),
                    self.answer_len,
                )
            };
        }
        unsafe {
            ffi::vaxembro_decode_intra_macroblock(
                self.data.as_ptr(),
                self.data.len(),
                self.at,
                self.mb_type,
                self.cbpy,
                self.cbpc,
                self.quantiser_scale,
                self.bits_per_pixel,
                self.flags,
                self.neighbours.as_ptr(),
                self.neighbours_len,
                self.matrix.as_ptr(),
                self.matrix_len,
                samples.as_mut_ptr(),
                self.samples_len.min(samples.len()),
                answer.as_mut_ptr(),
                self.answer_len,
            )
        }
    }

    pub fn make_in_picture(
        &self,
        state: &mut [u32],
        samples: &mut [i32],
        store: &mut [i32],
        header: &mut LentHeader,
        answer: &mut Answer,
    ) -> u32 {
        if self.with_header {
            return unsafe {
                ffi::vaxembro_decode_macroblock_with_header(
                    state.as_mut_ptr(),
                    self.state_len,
                    self.data.as_ptr(),
                    self.data.len(),
                    self.at,
                    self.quantiser_scale,
                    self.flags,
                    self.matrix.as_ptr(),
                    self.matrix_len,
                    samples.as_mut_ptr(),
                    self.samples_len.min(samples.len()),
                    store.as_mut_ptr(),
                    self.store_len.min(store.len()),
                    header.as_mut_ptr(),
                    self.header_len,
                    answer.as_mut_ptr(),
                    self.answer_len,
                )
            };
        }
        unsafe {
            ffi::vaxembro_decode_macroblock(
                state.as_mut_ptr(),
                self.state_len,
                self.data.as_ptr(),
                self.data.len(),
                self.at,
                self.mb_type,
                self.cbpy,
                self.cbpc,
                self.quantiser_scale,
                self.flags,
                self.matrix.as_ptr(),
                self.matrix_len,
                samples.as_mut_ptr(),
                self.samples_len.min(samples.len()),
                store.as_mut_ptr(),
                self.store_len.min(store.len()),
                answer.as_mut_ptr(),
                self.answer_len,
            )
        }
    }

    // The data's bits from here on are these. A header that is not meant is read first.
    fn put(&mut self, dice: &mut Dice, bits: &[bool]) {
        let mut data = Vec::new();
        self.at = bytes_of(&mut data, bits, dice.below(20), dice.next());
        self.data = data.leak();
        if !self.with_header {
            self.read_header();
        }
    }

    // Its header goes into the bits, before all others; what the flags say of it is not looked at.
    fn put_header(&mut self, dice: &mut Dice) -> Header {
        let header = Header::new(dice, self.mb_type, self.cbpc, self.cbpy, self.quantiser_scale);
        self.with_header = true;
        self.flags |= dice.below(2) as u32 * NOT_CODED;
        self.header = Outcome {
            bits: header.bits.len(),
            ..Outcome::default()
        };
        self.fields = header.fields;
        header
    }

    // What a header at its position gives is taken from a first call.
    fn read_header(&mut self) {
        let (mut header, mut answer) = (LentHeader::default(), Answer::default());
        let number = self.make_header(&mut header, &mut answer);
        assert!(matches!(number, 0 | 1 | 16 | 17), "{self:?}");
        self.header = Outcome {
            number,
            bits: answer[2],
            ..Outcome::default()
        };
        self.fields.copy_from_slice(&header[..HEADER]);
    }

    // What the bits give is taken from a first call, and with a header in them from one of the blocks after it.
    fn read_bits(&mut self) {
        if !self.with_header {
            self.bits = first(self);
        } else if self.header.number > 0 {
            self.bits = self.header;
        } else {
            self.bits = first(&self.handed_in());
            self.bits.bits += if self.bits.number == 0 { self.header.bits } else { 0 };
        }
    }

    // With the header handed in, at the position after it.
    fn handed_in(&self) -> Call {
        let [mb_type, cbpc, ac_pred_flag, cbpy, _, quantiser_scale] = self.fields.map(|z| z as u32);
        Call {
            at: self.at.wrapping_add(self.header.bits),
            mb_type,
            cbpy: cbpy as u8,
            cbpc: cbpc as u8,
            quantiser_scale,
            flags: self.flags & !(NOT_CODED | AC_PRED) | AC_PRED * ac_pred_flag,
            with_header: false,
            ..self.clone()
        }
    }
}

// A call that is fine, and a sentence that fits.
fn fine(dice: &mut Dice) -> (Call, Sentence) {
    let bits_per_pixel = 4 + dice.below(9) as u32;
    let middle = 4i32 << bits_per_pixel;
    let mut neighbours = [0; 21];
    neighbours[..3].fill_with(|| middle + dice.within(-middle, middle));
    neighbours[3..5].fill_with(|| 1 + dice.below(31) as i32);
    neighbours[5..7].fill_with(|| dice.below(2) as i32);
    neighbours[7..].fill_with(|| dice.within(-40, 40));
    let call = Call {
        data: &[],
        at: 0,
        mb_type: 4 + dice.below(2) as u32,
        cbpy: dice.next() as u8,
        cbpc: dice.next() as u8,
        quantiser_scale: 1 + dice.below(31) as u32,
        bits_per_pixel,
        flags: dice.next() as u32 & !NOT_CODED,
        neighbours,
        matrix: std::array::from_fn(|_| 1 + dice.below(255) as u8),
        neighbours_len: 21,
        matrix_len: 64,
        state_len: 5,
        samples_len: usize::MAX,
        store_len: usize::MAX,
        header_len: HEADER,
        answer_len: ANSWER,
        with_header: false,
        header: refused(1),
        fields: Fields::default(),
        bits: Outcome::default(),
        after: None,
        alone: Vec::new(),
    };
    let (dc_coded, reversible) = (call.flags & USE_INTRA_DC_VLC != 0, call.flags & REVERSIBLE_VLC != 0);
    let pattern = (call.cbpy & 15) << 2 | call.cbpc & 3;
    let longest = dice.of(&[1, 3, 6, 20]);
    let mut one = Sentence::default();
    for i in 0..6 {
        sentence::block(dice, &mut one, i, pattern >> (5 - i) & 1 == 1, dc_coded, reversible, true, longest);
    }
    (call, one)
}

// The same, with the header in the bits or not, and that header.
fn written(dice: &mut Dice, with_header: bool) -> (Call, Sentence, Header) {
    let (mut call, mut one) = fine(dice);
    if !with_header {
        return (call, one, Header::default());
    }
    let header = call.put_header(dice);
    one.bits.splice(..0, header.bits.iter().copied());
    (call, one, header)
}

// A whole sentence, and other bits after it.
fn whole(dice: &mut Dice, with_header: bool) -> Call {
    let (mut call, Sentence { mut bits, spellings }, _) = written(dice, with_header);
    call.bits.bits = bits.len();
    call.bits.spellings = spellings;
    push(&mut bits, dice.next(), dice.below(65));
    call.put(dice, &bits);
    call
}

// Bits of block 0, written out, that a number refuses: number, figure, whether reversible, text.
type Bad = (u32, u32, bool, &'static str);

// Whatever follows.
const BAD: [Bad; 9] = [
    (2, 1, false, "0000000000001"),
    (3, 0, false, "00000001 100000000 0"),
    (4, 3, false, "011 0000000000011"),
    (5, 0, false, "011 0000011 11 1 000000 0"),
    (5, 0, true, "011 00001 1 000000 0"),
    (6, 0, false, "011 0000011 11 1 000000 1 100000000000 1"),
    (6, 0, true, "011 00001 1 000000 1 00000000000 1 0000 0"),
    (7, 9, true, "011 00001 1 000000 1 00000000001 1 1001 0"),
    (8, 64, false, "011 0000011 11 1 111111 1 000000000001 1"),
];

// Where the data ends.
const LAST: [Bad; 14] = [
    (1, 0, false, "00000001 1000"),
    (1, 0, false, "011 0000011"),
    (2, 0, false, "00000000000"),
    (4, 0, false, "011 000000000"),
    (4, 3, false, "011 0000011 0 0000011"),
    (4, 3, false, "011 0000011 10 0000011"),
    (4, 0, true, "011 00000"),
    (17, 0, false, "0000000000"),
    (17, 0, false, "011 00000101000"),
    (17, 0, false, "011 0000011 0 000001"),
    (17, 0, false, "011 0000011 10 00000000"),
    (17, 0, false, "011 0000011 11 0 111111 1 000000000001 1 0"),
    (17, 0, true, "011 0000"),
    (17, 0, true, "011 00111111111110"),
];

// One of these, after a header or not, and at most so many other bits after it.
fn bad(dice: &mut Dice, these: &[Bad], more: usize, with_header: bool) -> Call {
    let (number, figure, reversible, text) = dice.of(these);
    let (mut call, _) = fine(dice);
    call.cbpy |= 8;
    call.flags = call.flags & !REVERSIBLE_VLC | USE_INTRA_DC_VLC | if reversible { REVERSIBLE_VLC } else { 0 };
    call.bits = Outcome { figure, ..refused(number) };
    let mut bits = if with_header { call.put_header(dice).bits } else { Bits::new() };
    bits.extend(bits_of(text));
    push(&mut bits, dice.next(), dice.below(more + 1));
    call.put(dice, &bits);
    call
}

// Bits that begin no header, whatever follows.
const NO_HEADER: [&str; 6] = ["0000001", "00000001", "000000000", "1 0 00000", "011 1 000001", "0001 0 000000"];

// Where the data ends, by the number that refuses them.
const LAST_HEADER: [(u32, &str); 9] = [
    (1, ""),
    (1, "010"),
    (1, "0001 0 11 1"),
    (17, "0"),
    (17, "00001"),
    (17, "00000000"),
    (17, "1 0 1"),
    (17, "1 1 0000"),
    (17, "000011 1 00001"),
];

// One of these, after stuffing or not.
fn bad_header(dice: &mut Dice) -> Call {
    let (mut call, _) = fine(dice);
    call.put_header(dice);
    let (number, text, more) = match dice.below(2) {
        0 => (16, dice.of(&NO_HEADER), dice.below(65)),
        _ => {
            let (number, text) = dice.of(&LAST_HEADER);
            (number, text, 0)
        }
    };
    (call.header, call.bits) = (refused(number), refused(number));
    let mut bits = bits_of(&STUFFING.repeat(dice.of(&[0, 0, 1, 3])));
    bits.extend(bits_of(text));
    push(&mut bits, dice.next(), more);
    call.put(dice, &bits);
    call
}

// One or two things bad before any bit; the header may be bad too.
fn spoiled(dice: &mut Dice, too_long: &'static [u8], with_header: bool) -> Call {
    let mut call = if with_header && dice.flag() {
        bad_header(dice)
    } else {
        whole(dice, with_header)
    };
    for _ in 0..1 + dice.below(2) {
        spoil(dice, &mut call, too_long);
    }
    call
}

fn spoil(dice: &mut Dice, call: &mut Call, too_long: &'static [u8]) {
    match dice.below(15) {
        0 => call.at = dice.of(&[8 * call.data.len() + 1, usize::MAX]),
        1 => call.data = too_long,
        2 => call.quantiser_scale = dice.outside(1, 31) as u32,
        3 => call.bits_per_pixel = dice.outside(4, 12) as u32,
        4 => {
            call.matrix[dice.below(64)] = 0;
            call.flags |= QUANT_TYPE;
        }
        5 => call.neighbours[dice.below(3)] = dice.outside(-65536, 65536),
        6 => call.neighbours[3 + dice.below(2)] = dice.of(&[0, 32, -1, i32::MIN, i32::MAX]),
        7 => {
            call.neighbours[5..7].fill(1);
            call.neighbours[7 + dice.below(14)] = dice.outside(-2048, 2047);
        }
        8 => call.samples_len = dice.below(384),
        9 => call.store_len = dice.below(192),
        10 => call.state_len = dice.below(5),
        11 => match dice.below(3) {
            0 => call.neighbours_len = dice.below(21),
            1 => call.matrix_len = dice.below(64),
            _ => call.answer_len = dice.below(ANSWER),
        },
        12 => call.flags |= NOT_CODED,
        13 => call.header_len = dice.below(HEADER),
        _ => call.mb_type = dice.of(&[0, 1, 2, 3, 6, u32::MAX]),
    }
}

// So many, each with what it has to give. What cut, flipped and random bits give is taken from a first call, and the samples from one
// without a header in the bits.
pub fn pool(dice: &mut Dice, n: usize) -> Vec<Call> {
    let too_long: &'static [u8] = vec![0x6D; MOST_BYTES + 1].leak();
    (0..n)
        .map(|k| {
            let with_header = k / 16 % 2 == 1;
            let mut call = match k % 16 {
                0 => whole(dice, with_header),
                1..=6 => cut(dice, with_header),
                7 => flipped(dice, with_header),
                8 => random(dice, with_header),
                9 if with_header => bad_header(dice),
                9 | 10 => bad(dice, &BAD, 64, with_header),
                11 => bad(dice, &LAST, 0, with_header),
                _ => spoiled(dice, too_long, with_header),
            };
            if call.with_header && call.header.number == 0 {
                call.after = Some(Box::new(call.handed_in()));
            }
            if call.alone_due().number == 0 {
                let (mut samples, base) = (vec![0; 384], call.after.as_deref().unwrap_or(&call));
                let number = base.make_alone(&mut samples, &mut LentHeader::default(), &mut Answer::default());
                assert_eq!(number, 0, "{call:?}");
                call.alone = samples;
            }
            call
        })
        .collect()
}

// A sentence that breaks off, in its header or after it: refused by 1 or 17 and by nothing else.
fn cut(dice: &mut Dice, with_header: bool) -> Call {
    let (mut call, Sentence { mut bits, .. }, header) = written(dice, with_header);
    if bits.is_empty() {
        return call;
    }
    let longest = if with_header && dice.flag() {
        header.bits.len()
    } else {
        bits.len()
    };
    bits.truncate(dice.below(longest));
    if bits.len() < header.bits.len() {
        call.header = refused(header.cut_due(bits.len()));
    }
    call.put(dice, &bits);
    call.read_bits();
    assert!(matches!(call.bits.number, 1 | 17) && call.bits.figure == 0, "{call:?}");
    call
}

// One to three bits the other way round, of its header alone or of all.
fn flipped(dice: &mut Dice, with_header: bool) -> Call {
    let (mut call, Sentence { mut bits, .. }, header) = written(dice, with_header);
    let mut rest = bits.split_off(if with_header && dice.flag() {
        header.bits.len()
    } else {
        bits.len()
    });
    flip(dice, &mut bits);
    bits.append(&mut rest);
    call.put(dice, &bits);
    call.read_header();
    call.read_bits();
    assert!(by_bits(&call), "{call:?}");
    call
}

fn random(dice: &mut Dice, with_header: bool) -> Call {
    let (mut call, ..) = written(dice, with_header);
    call.data = any_bytes(dice, 40).leak();
    call.at = dice.below(8 * call.data.len() + 1);
    call.read_header();
    call.read_bits();
    assert!(by_bits(&call), "{call:?}");
    call
}

// Accepted, or refused by a number of the bits.
fn by_bits(call: &Call) -> bool {
    matches!(call.bits.number, 0..=8 | 17) || call.with_header && call.bits.number == 16
}

// Of a refusal its number and figure, whatever else the answer holds.
fn first(call: &Call) -> Outcome {
    let mut answer = Answer::default();
    let number = call.make_alone(&mut [0; 384], &mut LentHeader::default(), &mut answer);
    let figure = answer[1] as u32;
    if number > 0 {
        return Outcome { figure, ..refused(number) };
    }
    Outcome {
        number,
        figure,
        bits: answer[2],
        spellings: std::array::from_fn(|k| answer[4 + k] as u32),
    }
}
