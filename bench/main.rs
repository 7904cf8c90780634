// How long a macroblock takes, alone and in a picture of 45 by 36, beside the original's; both decode the same bits into one buffer.
// Then how long the same macroblocks take with their headers in their bits, beside those whose headers are handed in. Then, beside the
// original's, whole pictures of clips, each a file of the lines that `still` reads.
use crate::bitreader::BitReader;
use crate::block::{self, MacroblockTextureContext};
use crate::common::bits::{Bits, bytes_of, push};
use crate::common::dice::Dice;
use crate::common::header::Header;
use crate::common::heading::Heading;
use crate::common::sentence::{self, component};
use crate::idct::HalfIntegerRounding;
use crate::texture::{TcoefTable, tcoef_table};
use layer::Layer;
use std::hint::black_box;
use std::time::Instant;
use vaxembro::{Context, Matrix, Method, Neighbours, Picture, STORE, Samples};

#[path = "clip.rs"]
mod clip;
#[path = "layer.rs"]
mod layer;
#[path = "with_header.rs"]
mod with_header;

const DEPTH: u32 = 8;
const QUANTISER: u32 = 8;
const WIDTH: u32 = 45;
const HEIGHT: u32 = 36;
// How many a block has.
const EVENTS: [usize; 3] = [0, 6, 44];
// How many macroblocks are timed together: few, so that a busy machine leaves some round of them alone.
const CHUNK: usize = 20;

// Headers of intra macroblocks with their quantisers, and their bits: one macroblock's after the other's, or each by itself.
pub struct Stream {
    width: u32,
    height: u32,
    headers: Vec<(Header, u32)>,
    parts: Vec<std::ops::Range<usize>>,
    data: Vec<u8>,
}

// A macroblock's header and its bits.
type Drawn = (Header, Bits);

fn drawn(dice: &mut Dice, macroblocks: usize, events: usize) -> Vec<Drawn> {
    let mut all = Vec::new();
    for _ in 0..macroblocks {
        let pattern = if events == 0 { 0 } else { 63 };
        let header = Header {
            mb_type: 4,
            ..Header::intra(dice, pattern)
        };
        let mut bits = Bits::new();
        for i in 0..6 {
            sentence::dc_part(dice, &mut bits, component(i >= 4), Some(6));
            list(dice, &mut bits, events);
        }
        all.push((header, bits));
    }
    all
}

impl Stream {
    // With these headers in front of the bits of each, or with none.
    fn of(macroblocks: &[Drawn], heading: impl Fn(&Header) -> Option<Heading>) -> Stream {
        let (mut bits, mut data) = (Bits::new(), Vec::new());
        for (header, own) in macroblocks {
            heading(header).iter().for_each(|heading| heading.put(&mut bits));
            bits.extend(own);
        }
        let rest = (8 - bits.len() % 8) % 8;
        push(&mut bits, 0, rest);
        bytes_of(&mut data, &bits, 0, 0);
        Stream {
            width: WIDTH,
            height: HEIGHT,
            headers: macroblocks.iter().map(|one| (one.0, QUANTISER)).collect(),
            parts: Vec::new(),
            data,
        }
    }

    // The bits of macroblock n, where the one before it ended at a position.
    fn bits(&self, n: usize, at: usize) -> (&[u8], usize) {
        match self.parts.get(n) {
            None => (&self.data, at),
            Some(part) => (&self.data[part.clone()], 0),
        }
    }
}

// So many events after a DC part. A code comes up about as often as its length makes it: with probability 1/2^length.
fn list(dice: &mut Dice, bits: &mut Bits, events: usize) {
    let rows = tcoef_table(TcoefTable::Intra);
    let mut place = 1;
    for left in (0..events).rev() {
        let most = if events > 40 { 0 } else { (63 - place - left).min(4) };
        let row = loop {
            let row = rows[dice.below(rows.len())];
            let fits = (row.2 == 1) == (left == 0) && usize::from(row.3) <= most;
            if fits && dice.below(1 << (row.1.max(3) - 3).min(8)) == 0 {
                break row;
            }
        };
        push(bits, row.0.into(), row.1.into());
        push(bits, dice.next(), 1);
        place += usize::from(row.3) + 1;
    }
}

// A way to decode a whole stream: what is done with each macroblock's samples is handed in.
trait Decoder {
    fn decode(&mut self, stream: &Stream, each: &mut dyn FnMut(&mut Samples));
}

struct OursAlone(Method);
struct OriginalAlone(MacroblockTextureContext);
struct OursInPicture(Method);
struct OriginalInPicture(MacroblockTextureContext);

fn ours(h: &Header, quantiser: u32, in_picture: bool) -> (vaxembro::Header, Context) {
    let mut context = Context::new(quantiser);
    context.ac_pred_flag = in_picture && h.ac_pred_flag;
    (vaxembro::Header::intra(h.cbpy, h.cbpc), context)
}

fn original(method: Method) -> MacroblockTextureContext {
    MacroblockTextureContext {
        quantiser_scale: QUANTISER,
        bits_per_pixel: DEPTH,
        quant_type: method == Method::One,
        ac_pred_flag: false,
        alternate_vertical_scan: false,
        intra_mismatch_exempt: false,
        idct_rounding: HalfIntegerRounding::AwayFromZero,
    }
}

impl Decoder for OursAlone {
    fn decode(&mut self, stream: &Stream, each: &mut dyn FnMut(&mut Samples)) {
        let (neighbours, matrix) = (Neighbours::outside(DEPTH, QUANTISER), Matrix::default());
        let (mut at, mut samples) = (0, [0; 384]);
        for (h, quantiser) in &stream.headers {
            let (header, context) = ours(h, *quantiser, false);
            let decoded =
                vaxembro::decode_intra_macroblock(&stream.data, at, header, context, DEPTH, self.0, &neighbours, &matrix, &mut samples);
            at = decoded.expect("a macroblock").position;
            each(&mut samples);
        }
    }
}

impl Decoder for OriginalAlone {
    fn decode(&mut self, stream: &Stream, each: &mut dyn FnMut(&mut Samples)) {
        let predictors = block::BlockPredictors::outside(DEPTH, QUANTISER);
        let (mut br, mut samples) = (BitReader::new(&stream.data), [0; 384]);
        for (h, _) in &stream.headers {
            let matrix = &block::DEFAULT_INTRA_QUANT_MATRIX;
            let one = block::decode_intra_macroblock(&mut br, &h.original(), self.0, predictors, matrix).expect("a macroblock");
            samples[..256].copy_from_slice(one.luma.as_flattened());
            samples[256..320].copy_from_slice(one.cb.as_flattened());
            samples[320..].copy_from_slice(one.cr.as_flattened());
            each(&mut samples);
        }
    }
}

impl Decoder for OursInPicture {
    fn decode(&mut self, stream: &Stream, each: &mut dyn FnMut(&mut Samples)) {
        let mut store = [0; STORE * WIDTH as usize];
        let mut picture = Picture::open(stream.width, stream.height, DEPTH, self.0, &mut store).expect("a picture");
        let (matrix, mut at, mut samples) = (Matrix::default(), 0, [0; 384]);
        for (n, (h, quantiser)) in stream.headers.iter().enumerate() {
            let (header, context) = ours(h, *quantiser, true);
            let (data, start) = stream.bits(n, at);
            let decoded = picture.decode_macroblock(data, start, header, context, &matrix, &mut samples);
            at = decoded.expect("a macroblock").position;
            each(&mut samples);
        }
    }
}

impl Decoder for OriginalInPicture {
    fn decode(&mut self, stream: &Stream, each: &mut dyn FnMut(&mut Samples)) {
        let mut layer = Layer::new(stream.width as usize, DEPTH);
        let (mut br, mut samples) = (BitReader::new(&stream.data), [0; 384]);
        for (n, (h, quantiser)) in stream.headers.iter().enumerate() {
            let context = MacroblockTextureContext {
                quantiser_scale: *quantiser,
                ac_pred_flag: h.ac_pred_flag,
                ..self.0
            };
            if let Some(part) = stream.parts.get(n) {
                br = BitReader::new(&stream.data[part.clone()]);
            }
            layer.decode(&mut br, n, h, context, &mut samples);
            each(&mut samples);
        }
    }
}

fn all_samples(decoder: &mut dyn Decoder, stream: &Stream) -> Vec<Samples> {
    let mut all = Vec::new();
    decoder.decode(stream, &mut |samples| all.push(*samples));
    all
}

// One round; the best time so far of every CHUNK macroblocks, in nanoseconds.
fn once(decoder: &mut dyn Decoder, stream: &Stream, best: &mut [f64]) {
    let (mut n, mut start) = (0, Instant::now());
    decoder.decode(stream, &mut |samples| {
        black_box(samples);
        n += 1;
        if n % CHUNK == 0 {
            let now = Instant::now();
            let chunk = &mut best[n / CHUNK - 1];
            *chunk = chunk.min((now - start).as_nanos() as f64);
            start = now;
        }
    });
}

// Many rounds of each side with its own stream, by turns: nanoseconds a macroblock.
fn by_turns(name: &str, sides: [(&mut dyn Decoder, &Stream); 2], rounds: usize) -> [f64; 2] {
    let [(one, stream), (other, beside)] = sides;
    assert!(all_samples(one, stream) == all_samples(other, beside), "{name}: samples differ");
    let chunks = stream.headers.len() / CHUNK;
    let mut best = [vec![f64::MAX; chunks], vec![f64::MAX; chunks]];
    for _ in 0..rounds {
        once(one, stream, &mut best[0]);
        once(other, beside, &mut best[1]);
    }
    best.map(|chunks| chunks.iter().sum::<f64>() / (chunks.len() * CHUNK) as f64)
}

fn beside(name: &str, sides: [&mut dyn Decoder; 2], stream: &Stream, rounds: usize) {
    let [ours, original] = by_turns(name, sides.map(|side| (side, stream)), rounds);
    println!("{name:44} {ours:8.0} {original:8.0} {:8.2}", original / ours);
}

fn columns(what: &str, [one, other]: [&str; 2]) {
    println!("{what:44} {one:>8} {other:>8} {:>8}", "ratio");
}

// Every kind of macroblock: in a picture or alone, its number of events, its method, and its name.
fn each_kind(mut each: impl FnMut(bool, usize, Method, &str)) {
    for in_picture in [false, true] {
        for (k, events) in EVENTS.iter().enumerate() {
            for (method, n) in [(Method::Two, 2), (Method::One, 1)] {
                let place = if in_picture { "in a picture" } else { "alone" };
                let what = if *events == 0 {
                    "DC only".to_string()
                } else {
                    format!("{events} events a block")
                };
                each(in_picture, k, method, &format!("{place}, {what}, method {n}"));
            }
        }
    }
}

pub fn main() {
    let mut dice = Dice(7);
    let mut arguments = std::env::args().skip(1).peekable();
    let rounds: usize = arguments.next().map_or(50, |n| n.parse().expect("a number of rounds"));
    // so many that no branch predictor learns them
    let all = EVENTS.map(|events| drawn(&mut dice, (WIDTH * HEIGHT) as usize, events));
    let streams = all.each_ref().map(|one| Stream::of(one, |_| None));
    columns("nanoseconds a macroblock", ["ours", "original"]);
    each_kind(|in_picture, k, method, name| {
        if in_picture {
            let mut sides = (OursInPicture(method), OriginalInPicture(original(method)));
            beside(name, [&mut sides.0, &mut sides.1], &streams[k], rounds);
        } else {
            let mut sides = (OursAlone(method), OriginalAlone(original(method)));
            beside(name, [&mut sides.0, &mut sides.1], &streams[k], rounds);
        }
    });
    columns("ours, with header", ["with", "without"]);
    each_kind(|in_picture, k, method, name| with_header::beside(name, &all[k], &streams[k], in_picture, method, rounds));
    if arguments.peek().is_some() {
        columns("nanoseconds a macroblock", ["ours", "original"]);
    }
    for file in arguments {
        let (method, stream) = clip::read(&file);
        let mut sides = (OursInPicture(method), OriginalInPicture(original(method)));
        beside(&clip::name(&file), [&mut sides.0, &mut sides.1], &stream, rounds);
    }
}
