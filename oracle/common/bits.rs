// Bits, and bytes that hold them.
use super::dice::Dice;

pub type Bits = Vec<bool>;

pub fn push(bits: &mut Bits, v: u64, n: usize) {
    bits.extend((0..n).rev().map(|k| v >> k & 1 == 1));
}

// Bytes that end with these bits, behind `lead` others, and where they start. `lead` is made up to whole bytes.
pub fn bytes_of(data: &mut Vec<u8>, bits: &[bool], lead: usize, noise: u64) -> usize {
    let at = lead + (8 - (lead + bits.len()) % 8) % 8;
    data.clear();
    data.resize((at + bits.len()) / 8, 0);
    (0..at)
        .filter(|k| noise >> (k % 64) & 1 == 1)
        .for_each(|k| data[k / 8] |= 128 >> (k % 8));
    (0..bits.len())
        .filter(|&k| bits[k])
        .for_each(|k| data[(at + k) / 8] |= 128 >> ((at + k) % 8));
    at
}

// The bits from a position on.
pub fn bits_from(data: &[u8], at: usize) -> Bits {
    (at..8 * data.len()).map(|k| data[k / 8] << (k % 8) & 128 != 0).collect()
}

// One to three bits the other way round.
pub fn flip(dice: &mut Dice, bits: &mut Bits) {
    for _ in 0..1 + dice.below(3) {
        if !bits.is_empty() {
            let i = dice.below(bits.len());
            bits[i] = !bits[i];
        }
    }
}

// Random bytes, fewer than `most`, with many zeros or not.
pub fn any_bytes(dice: &mut Dice, most: usize) -> Vec<u8> {
    let n = dice.below(most);
    let thin = dice.below(3);
    (0..n).map(|_| (0..thin).fold(dice.next(), |b, _| b & dice.next()) as u8).collect()
}
