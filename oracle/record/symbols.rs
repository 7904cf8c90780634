// DC parts, events and lists.
use super::lines::{Data, Record};
use crate::common::bits::{Bits, flip, push};
use crate::common::dice::Dice;
use crate::common::sentence::{self, MANY, Sentence, component, table};
use crate::common::symbol_call::Call;
use crate::texture;

const BOTH: [bool; 2] = [false, true];

fn word(text: &str) -> Bits {
    text.bytes().filter(|b| *b != b' ').map(|b| b == b'1').collect()
}

fn bits(value: u64, n: usize) -> Bits {
    let mut bits = Bits::new();
    push(&mut bits, value, n);
    bits
}

fn whole(record: &mut Record, dice: &mut Dice, c: Call, bits: &[bool]) -> u32 {
    record.symbol(c, &Data::of_bits(dice, bits))
}

// Without its last bits, every number of them.
fn cut(record: &mut Record, dice: &mut Dice, c: Call, bits: &[bool]) {
    (0..bits.len()).for_each(|n| {
        whole(record, dice, c, &bits[..n]);
    });
}

// Windows, short and whole: small numbers in every number of bits, and any 16.
fn windows(record: &mut Record, dice: &mut Dice, c: Call, any: usize) {
    for n in 0..=17 {
        (0..4.min(1 << n)).for_each(|v| {
            whole(record, dice, c, &bits(v, n));
        });
    }
    for _ in 0..any {
        let (v, n) = (dice.next(), 16 - dice.below(2) * dice.below(16));
        whole(record, dice, c, &bits(v, n));
    }
}

// Past the end of the data, and at it.
fn ends(record: &mut Record, c: Call) {
    for (n, at) in [(0, 0), (0, 1), (1, 8), (1, 9), (3, 24), (3, 25), (3, usize::MAX)] {
        record.symbol(c, &Data::new(vec![0x6d; n], at));
    }
}

// ---- DC parts

fn dc_part(code: u32, len: usize, size: usize, additional: u64, marker: u64) -> Bits {
    let mut part = bits(code.into(), len);
    push(&mut part, additional, size);
    if size > 8 {
        push(&mut part, marker, 1);
    }
    part
}

// Every size: least, greatest and both in the middle; marker 0; some cut everywhere and some with bits after.
fn dc_parts(record: &mut Record, dice: &mut Dice, chroma: bool) {
    let c = Call::Dc { chroma };
    for &(code, len, size) in texture::dc_size_table(component(chroma)) {
        let (code, len, size) = (u32::from(code), usize::from(len), usize::from(size));
        let half = 1u64 << size >> 1;
        let mut values = vec![0, half.saturating_sub(1), half, (1 << size) - 1];
        values.dedup();
        for &additional in &values {
            let mut part = dc_part(code, len, size, additional, 1);
            whole(record, dice, c, &part);
            push(&mut part, dice.next(), 9);
            whole(record, dice, c, &part);
            if size > 8 {
                whole(record, dice, c, &dc_part(code, len, size, additional, 0));
            }
        }
        if matches!(size, 0 | 2 | 8 | 9 | 12) {
            cut(record, dice, c, &dc_part(code, len, size, half + half / 2, 1));
        }
    }
    windows(record, dice, c, 20);
    ends(record, c);
}

// ---- events

fn type_3(last: bool, run: u64, level: i32, markers: [u64; 2]) -> Bits {
    let mut event = word("0000011 11");
    push(&mut event, last.into(), 1);
    push(&mut event, run, 6);
    push(&mut event, markers[0], 1);
    push(&mut event, level as u64, 12);
    push(&mut event, markers[1], 1);
    event
}

fn reversible_escape(last: bool, run: u64, level: i32, markers: [u64; 2], delimiter: u64) -> Bits {
    let mut event = word("00001");
    push(&mut event, last.into(), 1);
    push(&mut event, run, 6);
    push(&mut event, markers[0], 1);
    push(&mut event, level.unsigned_abs().into(), 11);
    push(&mut event, markers[1], 1);
    push(&mut event, delimiter, 4);
    push(&mut event, (level < 0).into(), 1);
    event
}

// With any run, as a list needs it.
fn escape(reversible: bool, last: bool, run: u64, level: i32) -> Bits {
    if reversible {
        reversible_escape(last, run, level, [1, 1], 0)
    } else {
        type_3(last, run, level, [1, 1])
    }
}

// Every row with both signs; behind an escape of type 1 and 2 with one.
fn plain_rows(record: &mut Record, dice: &mut Dice, inter: bool) {
    let c = Call::Event { reversible: false, inter };
    for (k, row) in texture::tcoef_table(table(inter)).iter().enumerate() {
        let code = bits(row.0.into(), row.1.into());
        for sign in [0, 1] {
            whole(record, dice, c, &[&code[..], &bits(sign, 1)].concat());
        }
        let sign = bits(k as u64 & 1, 1);
        for prefix in ["0000011 0", "0000011 10"] {
            let event = [&word(prefix)[..], &code, &sign].concat();
            whole(record, dice, c, &event);
            if k % 34 == 5 {
                cut(record, dice, c, &event);
            }
        }
    }
}

fn plain_escapes(record: &mut Record, dice: &mut Dice, inter: bool) {
    let c = Call::Event { reversible: false, inter };
    let levels = [1, -1, 2047, -2047, 0, -2048];
    for last in BOTH {
        for run in [0, 1, 62, 63] {
            for level in levels {
                whole(record, dice, c, &type_3(last, run, level, [1, 1]));
            }
        }
    }
    for markers in [[0, 1], [1, 0], [0, 0]] {
        for level in levels {
            whole(record, dice, c, &type_3(true, 5, level, markers));
        }
    }
    cut(record, dice, c, &type_3(false, 9, -300, [1, 1]));
    // another escape, and no code, behind one of type 1 and 2
    for prefix in ["0000011 0", "0000011 10"] {
        for rest in ["0000011 0 1110", "0000011 11 0000000", "0000000000000", "000000001", "00000", "0"] {
            whole(record, dice, c, &[word(prefix), word(rest)].concat());
        }
    }
}

fn reversible_rows(record: &mut Record, dice: &mut Dice, inter: bool) {
    let c = Call::Event { reversible: true, inter };
    for (k, row) in texture::rvlc_tcoef_table().iter().enumerate() {
        let code = bits(row.0.into(), row.1.into());
        for sign in [0, 1] {
            let event = [&code[..], &bits(sign, 1)].concat();
            whole(record, dice, c, &event);
            if k % 56 == 11 && sign == 0 {
                cut(record, dice, c, &event);
            }
        }
    }
}

fn reversible_escapes(record: &mut Record, dice: &mut Dice, inter: bool) {
    let c = Call::Event { reversible: true, inter };
    for last in BOTH {
        for run in [0, 1, 62, 63] {
            for level in [1, -1, 1024, -1024, 2047, -2047, 0] {
                whole(record, dice, c, &reversible_escape(last, run, level, [1, 1], 0));
            }
        }
    }
    for level in [0, 77] {
        for delimiter in 1..16 {
            whole(record, dice, c, &reversible_escape(false, 3, level, [1, 1], delimiter));
        }
        for markers in [[0, 1], [1, 0], [0, 0]] {
            whole(record, dice, c, &reversible_escape(true, 3, -level, markers, 0));
        }
        cut(record, dice, c, &reversible_escape(true, 7, -level, [1, 1], 0));
    }
}

// ---- lists

fn of_escapes(reversible: bool, events: &[(u64, i32)]) -> Bits {
    let last = events.len() - 1;
    let each = events
        .iter()
        .enumerate()
        .map(|(k, &(run, level))| escape(reversible, k == last, run, level));
    each.collect::<Vec<Bits>>().concat()
}

// Landings at 63, at 64 and beyond; the first bad one is told, unless a bit error comes after it.
fn landings(record: &mut Record, dice: &mut Dice, c: Call, reversible: bool) {
    let lists: [&[(u64, i32)]; 10] = [
        &[(62, 5)],
        &[(63, -5)],
        &[(61, 1), (0, 2)],
        &[(61, 1), (1, 2)],
        &[(62, 1), (0, 2)],
        &[(62, 1), (1, 2)],
        &[(63, 1), (63, 2), (0, 3)],
        &[(30, 7), (40, 8), (50, 9)],
        &[(60, 7), (3, 8), (63, 9), (2, -1)],
        &[(0, 1), (0, -1), (0, 2), (58, -2), (0, 2047)],
    ];
    for list in lists {
        let one = of_escapes(reversible, list);
        whole(record, dice, c, &one);
        // another in the place of the last event: no code, a reserved level, a marker 0, a delimiter, nothing
        let kept = one.len() - escape(reversible, true, 0, 1).len();
        let bad = if reversible {
            let escape = |level, marker, delimiter| reversible_escape(true, 0, level, [1, marker], delimiter);
            vec![bits(0, 16), escape(0, 1, 0), escape(9, 0, 0), escape(9, 1, 6), bits(0, 0)]
        } else {
            let escape = |level, marker| type_3(true, 0, level, [marker, 1]);
            vec![bits(0, 13), escape(-2048, 1), escape(9, 0), bits(0, 0)]
        };
        for tail in bad {
            whole(record, dice, c, &[&one[..kept], &tail].concat());
        }
    }
    // as many events as places, one less and one more
    for count in [62, 63, 64, 65] {
        let events: Vec<(u64, i32)> = (0..count).map(|k| (0, if k % 3 == 0 { -k - 1 } else { k + 1 })).collect();
        whole(record, dice, c, &of_escapes(reversible, &events));
    }
}

// Drawn: whole, with other bits after, cut, and with bits flipped.
fn drawn(record: &mut Record, dice: &mut Dice, c: Call, reversible: bool, inter: bool, dc_coded: bool) {
    for k in 0..12 {
        let mut one = Sentence::default();
        let longest = [1, 2, 4, 8, 20, 64][k / 2];
        sentence::list(dice, &mut one, &MANY, reversible, inter, dc_coded.into(), k % 4 != 3, longest);
        let mut one = one.bits;
        whole(record, dice, c, &one);
        let kept = dice.below(one.len());
        whole(record, dice, c, &one[..kept]);
        push(&mut one, dice.next(), 24);
        if k % 2 == 0 {
            whole(record, dice, c, &one);
        }
        flip(dice, &mut one);
        whole(record, dice, c, &one);
    }
}

pub fn all(record: &mut Record, dice: &mut Dice) {
    BOTH.iter().for_each(|&chroma| dc_parts(record, dice, chroma));
    for inter in BOTH {
        plain_rows(record, dice, inter);
        plain_escapes(record, dice, inter);
        reversible_rows(record, dice, inter);
        reversible_escapes(record, dice, inter);
        for reversible in BOTH {
            let c = Call::Event { reversible, inter };
            windows(record, dice, c, 40);
            ends(record, c);
            for dc_coded in BOTH {
                let c = Call::List {
                    reversible,
                    inter,
                    dc_coded,
                };
                drawn(record, dice, c, reversible, inter, dc_coded);
                if !inter {
                    landings(record, dice, c, reversible);
                    ends(record, c);
                }
            }
        }
    }
}
