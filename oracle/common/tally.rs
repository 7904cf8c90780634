// Functions of values, called on both sides: counted, or told with a simple input at the first difference.
use super::smallest::{Simple, simplest};
use std::fmt::Debug;
use std::panic::{AssertUnwindSafe, catch_unwind, set_hook};

// the number of the first test that fails, or 0
pub fn first_bad(context: bool, values: bool) -> u32 {
    if !context {
        12
    } else if !values {
        13
    } else {
        0
    }
}

pub struct Tally {
    name: &'static str,
    equal: u64,
    refused: [u64; 2],
}

impl Tally {
    pub fn new(name: &'static str) -> Tally {
        Tally {
            name,
            equal: 0,
            refused: [0; 2],
        }
    }

    // What Rattle answers and leaves in the lent memory, against the number that must be and the original's value.
    pub fn took<I: Simple + Debug, A: PartialEq + Debug + Copy>(
        &mut self,
        input: I,
        lent: A,
        ours: impl Fn(&I, &mut A) -> u32,
        number: impl Fn(&I) -> u32,
        value: impl Fn(&I) -> A,
    ) {
        let both = |input: &I| {
            let mut left = lent;
            let answer = ours(input, &mut left);
            let number = number(input);
            let due = if number == 0 { value(input) } else { lent };
            ((answer, left), (number, due))
        };
        let (ours, due) = both(&input);
        if ours != due {
            // an input at which the original stops is none that differs
            set_hook(Box::new(|_| ()));
            let differs = |input: &I| catch_unwind(AssertUnwindSafe(|| both(input))).is_ok_and(|(a, b)| a != b);
            let input = simplest(input, I::simpler, differs);
            let (ours, due) = both(&input);
            println!("DIFFERS: {} of {input:?}\n  ours: {ours:?}\n  due:  {due:?}", self.name);
            std::process::exit(1);
        }
        match due.0 {
            0 => self.equal += 1,
            n => self.refused[(n - 12) as usize] += 1,
        }
    }

    // A function that never refuses.
    pub fn equals<I: Simple + Debug, A: PartialEq + Debug + Copy>(&mut self, input: I, ours: impl Fn(&I) -> A, value: impl Fn(&I) -> A) {
        let lent = ours(&input);
        let told = |input: &I, left: &mut A| {
            *left = ours(input);
            0
        };
        self.took(input, lent, told, |_| 0, value);
    }

    pub fn says(&self) {
        println!(
            "{:36} {:>10} equal {:>9} refused by 12 {:>9} refused by 13",
            self.name, self.equal, self.refused[0], self.refused[1]
        );
    }
}
