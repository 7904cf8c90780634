// A great many mixed calls of the C interface in one process. Each must give what is due, document 01's number first; a refused one must
// leave state, samples, store and header as they were; an accepted one with its header in the bits must leave what one with the same header
// handed in leaves; memory use must stay; and at the end a picture must come out as it did at first.
use calls::{ANSWER, Answer, Call, HEADER, LentHeader, Outcome, refused};
use common::dice::Dice;
use std::io::Read;
use std::time::Instant;
use vaxembro::ffi;

mod calls;
#[allow(dead_code)]
#[path = "../oracle/common"]
mod common {
    pub mod bits;
    pub mod dice;
    pub mod sentence;
}
mod headers;
mod texture;

// How far memory use may lie above that of the first calls, which the system tells only roughly.
const SLACK_KB: usize = 256;

// The numbers by which a call may be refused.
const NUMBERS: [usize; 17] = [1, 2, 3, 4, 5, 6, 7, 8, 9, 10, 11, 12, 13, 14, 15, 16, 17];

// An answer before each call.
const UNTOLD: Answer = [991, 992, 993, 994, 995, 996, 997, 998, 999, 1000, 1001];

// Lent memory, longer than any call is told.
#[derive(Clone, PartialEq)]
struct Lent {
    state: [u32; 6],
    samples: [i32; 388],
    store: Vec<i32>,
    header: LentHeader,
}

// A picture that calls are made in, a copy of its memory, and memory for a call beside it.
struct Slot {
    lent: Lent,
    kept: Lent,
    beside: Lent,
    // a picture or a store that no opening made: it is never opened anew
    elsewhere: bool,
    answer: Answer,
}

impl Slot {
    fn new(state: [u32; 5], width: usize, stored: i32, elsewhere: bool) -> Slot {
        let mut lent = Lent {
            state: [77; 6],
            samples: [-1; 388],
            store: vec![stored; 192 * width + 4],
            header: [-1; HEADER + 2],
        };
        lent.state[..5].copy_from_slice(&state);
        Slot {
            kept: lent.clone(),
            beside: lent.clone(),
            lent,
            elsewhere,
            answer: UNTOLD,
        }
    }

    fn complete(&self) -> bool {
        let [width, height, _, _, accepted, _] = self.kept.state;
        accepted >= width * height
    }

    // Document 01's number by the state: 11, 12, 14, 15, 13, and of a header that is handed in 9, 10.
    fn due(&self, call: &Call) -> Outcome {
        let [width, height, depth, method, accepted, _] = self.kept.state;
        if call.state_len < 5 || call.too_short() {
            return refused(14);
        }
        if !(1..=45).contains(&width) || !(1..=36).contains(&height) || !call.data_fine() {
            return refused(11);
        }
        if !call.context_fine(depth, method != 0) {
            return refused(12);
        }
        if call.samples_len < 384 || call.store_len < 192 * width as usize {
            return refused(14);
        }
        if self.complete() {
            return refused(15);
        }
        // such a store holds a DC out of range everywhere
        if self.elsewhere && accepted > 0 {
            return refused(13);
        }
        call.read_due()
    }

    fn in_picture(&mut self, call: &Call) -> u32 {
        let due = self.due(call);
        self.answer = UNTOLD;
        let lent = &mut self.lent;
        let given = call.make_in_picture(
            &mut lent.state,
            &mut lent.samples,
            &mut lent.store,
            &mut lent.header,
            &mut self.answer,
        );
        self.answered("in a picture", call, given, due);
        if given == 0 {
            if let Some(after) = &call.after {
                self.as_handed_in(call, after);
            }
            self.kept.state[4] += 1;
            self.accepted(call, self.kept.state[2]);
        }
        self.unchanged("in a picture", call);
        given
    }

    // The same call with its header handed in leaves the same, over the memory as it was before.
    fn as_handed_in(&mut self, call: &Call, after: &Call) {
        let (lent, beside, kept) = (&self.lent, &mut self.beside, &self.kept);
        (beside.state, beside.samples) = (kept.state, kept.samples);
        beside.store.copy_from_slice(&kept.store);
        let mut answer = UNTOLD;
        let given = after.make_in_picture(
            &mut beside.state,
            &mut beside.samples,
            &mut beside.store,
            &mut beside.header,
            &mut answer,
        );
        answer[2] += call.header.bits;
        let same = beside.state == lent.state && beside.samples == lent.samples && beside.store == lent.store;
        if given != 0 || !same || answer != self.answer {
            differs("beside the header handed in", call);
        }
    }

    fn header(&mut self, call: &Call) -> u32 {
        let due = call.header_due();
        self.answer = UNTOLD;
        let given = call.make_header(&mut self.lent.header, &mut self.answer);
        self.answered("a header", call, given, due);
        if given == 0 {
            self.kept.header[..HEADER].copy_from_slice(&call.fields);
        }
        if self.lent.header != self.kept.header {
            differs("the fields of a header", call);
        }
        given
    }

    fn alone(&mut self, call: &Call) -> u32 {
        let due = call.alone_due();
        self.answer = UNTOLD;
        let given = call.make_alone(&mut self.lent.samples, &mut self.lent.header, &mut self.answer);
        self.answered("alone", call, given, due);
        if given == 0 {
            if self.lent.samples[..384] != call.alone {
                differs("samples of a macroblock alone", call);
            }
            self.accepted(call, call.bits_per_pixel);
        }
        if self.lent.samples != self.kept.samples || self.lent.header != self.kept.header {
            differs("samples or header after a macroblock alone", call);
        }
        given
    }

    // The number, and the answer: one that is too short is not written.
    fn answered(&self, what: &str, call: &Call, given: u32, due: Outcome) {
        let mut answer = UNTOLD;
        if call.answer_len >= ANSWER {
            let position = call.at.wrapping_add(due.bits);
            answer[..4].copy_from_slice(&[due.number as usize, due.figure as usize, due.bits, position]);
            answer[4..ANSWER].copy_from_slice(&due.spellings.map(|n| n as usize));
        }
        if given != due.number || self.answer != answer {
            println!("given {given} {:?}, due {due:?}", self.answer);
            differs(what, call);
        }
    }

    // Takes what an accepted call wrote; it must lie in range, and nothing past what it may write.
    fn accepted(&mut self, call: &Call, depth: u32) {
        let (lent, kept) = (&self.lent, &mut self.kept);
        if lent.samples[..384].iter().any(|z| !(0..1 << depth).contains(z)) {
            differs("samples out of range", call);
        }
        if call.with_header {
            kept.header[..HEADER].copy_from_slice(&call.fields);
        }
        kept.samples[..384].copy_from_slice(&lent.samples[..384]);
        let most = 192 * kept.state[0].min(45) as usize;
        kept.store[..most].copy_from_slice(&lent.store[..most]);
    }

    fn unchanged(&self, what: &str, call: &Call) {
        if self.lent != self.kept {
            differs(what, call);
        }
    }

    // An opening: refused by one of its numbers, or of another size, which fits the store.
    fn open(&mut self, dice: &mut Dice) -> u32 {
        let widest = (self.lent.store.len() / 192).min(45);
        let mut state = [
            1 + dice.below(widest) as u32,
            1 + dice.below(4) as u32,
            4 + dice.below(9) as u32,
            dice.below(2) as u32,
            0,
        ];
        let (mut len, mut due) = (5, 0);
        match dice.below(if self.complete() && !self.elsewhere { 8 } else { 4 }) {
            0 => (state[0], due) = (dice.outside(1, 45) as u32, 11),
            1 => (state[1], due) = (dice.outside(1, 36) as u32, 11),
            2 => (state[2], due) = (dice.outside(4, 12) as u32, 12),
            3 => (len, due) = (dice.below(5), 14),
            _ => self.kept.state[..5].copy_from_slice(&state),
        }
        let [width, height, depth, method, _] = state;
        let given = unsafe { ffi::vaxembro_open(width, height, depth, method, self.lent.state.as_mut_ptr(), len) };
        if given != due || self.lent != self.kept {
            println!("DIFFERS: opening {state:?}: given {given}, due {due}, state {:?}", self.lent.state);
            std::process::exit(1);
        }
        given
    }
}

fn differs(what: &str, call: &Call) -> ! {
    println!("DIFFERS: {what}: {call:?}");
    std::process::exit(1);
}

// A whole picture over this store: every answer, all samples and every header.
fn picture(good: &[&Call], store: &mut [i32]) -> Vec<i32> {
    let (mut state, mut samples, mut header) = ([0; 5], [0; 384], LentHeader::default());
    let mut all = Vec::with_capacity(45 * 36 * (ANSWER + 384 + header.len()));
    assert_eq!(unsafe { ffi::vaxembro_open(45, 36, 8, 1, state.as_mut_ptr(), 5) }, 0);
    for k in 0..45 * 36 {
        let mut answer = Answer::default();
        good[k % good.len()].make_in_picture(&mut state, &mut samples, store, &mut header, &mut answer);
        all.extend(answer[..ANSWER].iter().map(|&n| n as i32));
        all.extend_from_slice(&samples);
        all.extend_from_slice(&header);
    }
    assert_eq!(state[4], 45 * 36);
    all
}

// What the system tells of this process's memory, in kB; nothing is allocated for it.
fn resident() -> usize {
    let mut text = [0; 4096];
    let n = std::fs::File::open("/proc/self/status")
        .and_then(|mut f| f.read(&mut text))
        .expect("/proc/self/status");
    let text = std::str::from_utf8(&text[..n]).expect("text");
    let line = text.lines().find_map(|line| line.strip_prefix("VmRSS:")).expect("VmRSS");
    line.trim().trim_end_matches(" kB").parse().expect("a number")
}

fn slots() -> Vec<Slot> {
    let mut all: Vec<Slot> = (0..12).map(|k| Slot::new([1, 1, 8, 0, 1], 1 + k % 4, i32::MIN, false)).collect();
    // from elsewhere: a store out of range, a size, a depth and a count
    all.push(Slot::new([2, 2, 8, 0, 1], 2, 65537, true));
    all.push(Slot::new([46, 1, 8, 1, 0], 46, 0, true));
    all.push(Slot::new([1, 1, 13, 0, 0], 1, 0, true));
    all.push(Slot::new([3, 3, 8, 0, u32::MAX], 3, 0, true));
    all.push(Slot::new([1, 1, 8, 0, 1], 45, i32::MIN, false));
    all
}

fn step(dice: &mut Dice, slots: &mut [Slot], pool: &[Call]) -> u32 {
    let last = slots.len() - 1;
    // the widest picture has the longest store, so it comes up less often
    let slot = &mut slots[if dice.below(128) == 0 { last } else { dice.below(last) }];
    let call = &pool[dice.below(pool.len())];
    match dice.below(16) {
        0 => slot.open(dice),
        _ if slot.complete() && !slot.elsewhere && dice.below(2) == 0 => slot.open(dice),
        1..=4 => slot.alone(call),
        5 => slot.header(call),
        _ => slot.in_picture(call),
    }
}

fn main() {
    let calls: u64 = std::env::args()
        .nth(1)
        .map_or(100_000_000, |n| n.parse().expect("a number of calls"));
    let mut dice = Dice(1);
    let pool = calls::pool(&mut dice, 8192);
    let lent_whole = |c: &Call| c.state_len == 5 && c.store_len == usize::MAX;
    let good: Vec<&Call> = pool.iter().filter(|c| c.alone_due().number == 0 && lent_whole(c)).collect();
    let spelled = |k: usize| good.iter().any(|c| c.bits.spellings[k] > 0);
    fine((0..5).all(spelled), "a spelling that no call has");
    let changed = |by: i32| good.iter().any(|c| c.with_header && c.fields[4] == by);
    fine((-2..3).all(changed), "a change of the quantiser that no call has");
    let mut slots = slots();
    let at_first = picture(&good, &mut vec![i32::MIN; 192 * 45]);
    let (mut counts, start) = ([0u64; 18], Instant::now());
    let (mut first, mut most) = (0, 0);
    for n in 0..calls {
        counts[step(&mut dice, &mut slots, &pool) as usize] += 1;
        if n % (calls / 100).max(1) == 0 {
            let now = resident();
            first = if n == 0 { now } else { first };
            most = most.max(now);
        }
    }
    let seconds = start.elapsed().as_secs_f64();
    let at_last = picture(&good, &mut slots.last_mut().expect("a slot").lent.store);
    fine(at_first == at_last, "a picture after all calls");
    fine(most <= first + SLACK_KB, "memory use");
    let given = counts[0] > 0 && NUMBERS.iter().all(|&k| counts[k] > 0);
    fine(calls < 1_000_000 || given, "a number that no call gave");
    println!("accepted {}", counts[0]);
    NUMBERS.iter().for_each(|&k| println!("refused by {k}: {}", counts[k]));
    println!(
        "memory {first} kB at first, {most} kB at most; {seconds:.0} seconds, {:.0} calls a second",
        calls as f64 / seconds
    );
    println!("{calls} calls, no difference");
}

fn fine(fine: bool, what: &str) {
    if !fine {
        println!("DIFFERS: {what}");
        std::process::exit(1);
    }
}
