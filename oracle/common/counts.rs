// Counts of answers by number, printed part by part, and of those whose spellings were held to what was written.
use super::sentence::Spellings;

// Of answers: 0, accepted, to 17.
pub const NUMBERS: usize = 18;

#[derive(Default)]
pub struct Counts {
    now: [u64; NUMBERS],
    all: [u64; NUMBERS],
    held: u64,
    spelled: [u64; 5],
}

impl Counts {
    pub fn took(&mut self, number: u32) {
        self.now[number as usize] += 1;
    }

    // This part's, and then they are 0.
    pub fn says(&mut self, name: &str, what: &str) {
        println!("{name:44} {}", told(&self.now, what));
        self.all.iter_mut().zip(self.now).for_each(|(a, n)| *a += n);
        self.now = [0; NUMBERS];
    }

    // The spellings that an accepted call tells must be those written; `call` says it where they are not.
    pub fn spells(&mut self, ours: Spellings, written: Spellings, call: impl Fn()) {
        if ours != written {
            call();
            println!("  spellings: ours {ours:?}, written {written:?}");
            std::process::exit(1);
        }
        self.held += 1;
        self.spelled.iter_mut().zip(written).for_each(|(a, n)| *a += u64::from(n));
    }

    // The spellings, and all parts together.
    pub fn end(&self, what: &str) {
        let [plain, one, two, three, escapes] = self.spelled;
        println!(
            "{:44} {:>9} {what}: {plain:>8} plain, {one} of type 1, {two} of type 2, {three} of type 3, {escapes} reversible escapes",
            "spellings as written", self.held
        );
        self.all(what);
    }

    pub fn all(&self, what: &str) {
        println!("{:44} {}, no difference", "all", told(&self.all, what));
    }

    pub fn cases(&self) -> u64 {
        self.all.iter().sum()
    }

    pub fn accepted(&self) -> u64 {
        self.all[0]
    }
}

fn told(counts: &[u64; NUMBERS], what: &str) -> String {
    let mut text = format!("{:>9} {what}: {:>8} accepted", counts.iter().sum::<u64>(), counts[0]);
    for (number, n) in counts.iter().enumerate().skip(1).filter(|(_, n)| **n > 0) {
        text += &format!(", {n} by {number}");
    }
    text
}

// What `oracle/run.sh` adds up.
pub fn blocks(compared: u64, decoded: u64) {
    println!("blocks compared: {compared}, decoded {decoded}");
}

// The same of headers by themselves.
pub fn headers(compared: u64, read: u64) {
    println!("headers compared: {compared}, read {read}");
}
