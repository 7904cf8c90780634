// Calls that read data, made on both sides: counted, or told in a small form at the first difference.
use super::bits::bytes_of;
use super::counts::Counts;
use super::dice::Dice;
use super::sentence::{Spellings, UNTOLD};
use super::smallest::{data_told, simplest, smallest_data};
use std::fmt::Debug;

// All but the data and the position.
pub trait Call: Clone + Debug {
    type Answer: PartialEq + Debug;
    // with the spellings, which the original does not tell
    fn ours(&self, data: &[u8], at: usize) -> (Self::Answer, Spellings);
    // by the original and document 01
    fn due(&self, data: &[u8], at: usize) -> Self::Answer;
    // 0: accepted
    fn number(answer: &Self::Answer) -> u32;
    fn simpler(&self) -> Vec<Self>;

    fn told(&self, ours: &Self::Answer, due: &Self::Answer) -> String {
        format!("  ours: {ours:?}\n  due:  {due:?}")
    }

    // A refusal tells no spellings.
    fn same(ours: &Self::Answer, spellings: Spellings, due: &Self::Answer) -> bool {
        ours == due && (Self::number(due) == 0 || spellings == UNTOLD)
    }

    fn differs(&self, data: &[u8], at: usize) -> bool {
        let ((ours, spellings), due) = (self.ours(data, at), self.due(data, at));
        !Self::same(&ours, spellings, &due)
    }
}

#[derive(Default)]
pub struct Test {
    data: Vec<u8>,
    pub counts: Counts,
}

impl Test {
    // These bits and then the end of the data. `written`: how the events in them are spelled, where that is known.
    pub fn bits<C: Call>(&mut self, dice: &mut Dice, call: &C, bits: &[bool], written: Option<Spellings>) -> C::Answer {
        let mut data = std::mem::take(&mut self.data);
        let at = bytes_of(&mut data, bits, dice.below(20), dice.next());
        let answer = self.bytes(call, &data, at, written);
        self.data = data;
        answer
    }

    pub fn bytes<C: Call>(&mut self, call: &C, data: &[u8], at: usize, written: Option<Spellings>) -> C::Answer {
        let ((ours, spellings), due) = (call.ours(data, at), call.due(data, at));
        if !C::same(&ours, spellings, &due) {
            differs(call.clone(), data.to_vec(), at);
        }
        let number = C::number(&due);
        self.counts.took(number);
        if let Some(written) = written.filter(|_| number == 0) {
            let told = || println!("DIFFERS: {call:?}\n  {}", data_told(data, at));
            self.counts.spells(spellings, written, told);
        }
        due
    }
}

// The data first, then the rest, then the data again.
fn differs<C: Call>(mut call: C, mut data: Vec<u8>, mut at: usize) -> ! {
    for _ in 0..2 {
        (data, at) = smallest_data(data, at, |data, at| call.differs(data, at));
        call = simplest(call, C::simpler, |call| call.differs(&data, at));
    }
    let ((ours, spellings), due) = (call.ours(&data, at), call.due(&data, at));
    println!("DIFFERS: {call:?}\n  {}", data_told(&data, at));
    println!("{}\n  spellings: ours {spellings:?}, lent {UNTOLD:?}", call.told(&ours, &due));
    std::process::exit(1);
}
