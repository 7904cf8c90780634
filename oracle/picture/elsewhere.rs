// One call with a picture and a store from elsewhere, in range or not.
use super::layer::{Kept, Picture, Place, Step, due};
use super::ours;
use super::play::{Draw, miscounted, same, step_told, told};
use super::scene::simpler_steps;
use super::style::{Style, put_bits, spoil};
use crate::common::counts::Counts;
use crate::common::dice::Dice;
use crate::common::sentence::{Spellings, UNTOLD};
use crate::common::smallest::{simplest, smallest_data};

// Where a record lies, and a block in it: a ring of two rows of macroblocks, 96 numbers each, of which 91 are used: for each block its
// DC, its first row and its first column, and then the quantiser. Only this part of the comparison knows it.
fn record(width: u32, n: usize) -> usize {
    n % (2 * width as usize) * 96
}

fn stored(width: u32, store: &[i32], (grid, x, y): Place) -> Kept {
    let (column, row, i) = if grid == 0 {
        (x / 2, y / 2, 2 * (y % 2) + x % 2)
    } else {
        (x, y, grid + 3)
    };
    let base = record(width, width as usize * row + column);
    let at = base + 15 * i;
    Kept {
        dc: store[at],
        row: std::array::from_fn(|u| store[at + 1 + u]),
        column: std::array::from_fn(|v| store[at + 8 + v]),
        quantiser: store[base + 90],
    }
}

pub fn call(counts: &mut Counts, dice: &mut Dice, style: &Style, draw: Draw) {
    let (width, height) = if dice.flag() {
        (1 + dice.below(4), 1 + dice.below(4))
    } else {
        (1 + dice.below(45), 1 + dice.below(36))
    };
    let accepted = match dice.below(8) {
        0 => width * height - 1,
        1 => dice.of(&[width * height, width * height + 1, u32::MAX as usize]),
        _ => dice.below(width * height),
    };
    let mut p = Picture {
        numbers: [width as u32, height as u32, 4 + dice.below(9) as u32, accepted as u32],
        method: dice.flag(),
    };
    let middle = 4 << p.numbers[2];
    let top = dice.of(&[0, 3, 40, 2047]);
    let mut store: Vec<i32> = vec![0; 192 * width + if dice.rarely() { dice.below(100) } else { 0 }];
    for (k, z) in store.iter_mut().enumerate() {
        *z = match k % 96 {
            90 => 1 + dice.below(31) as i32,
            91.. => dice.next() as i32,
            k if k % 15 == 0 && dice.flag() => middle + dice.within(-64, 64),
            k if k % 15 == 0 => dice.within(-65536, 65536),
            _ => dice.within(-top - i32::from(top == 2047), top),
        };
    }
    // numbers out of range, most of them around the macroblock that is due
    for _ in 0..dice.below(3) {
        let any = dice.below(2 * width);
        let back = dice.of(&[1, width, width + 1, any]);
        let base = record(width as u32, accepted + 2 * width - back);
        let k = dice.below(91);
        store[base + k] = match k {
            90 => dice.outside(1, 31),
            _ if k % 15 == 0 => dice.outside(-65536, 65536),
            _ => dice.outside(-2048, 2047),
        };
    }
    let mut quantiser = 1 + dice.below(31) as u32;
    let (mut s, one) = draw(style, dice, &mut quantiser);
    put_bits(dice, &mut s, &one.bits);
    let mut written = Some(one.spellings);
    match dice.below(12) {
        0 => p.numbers[0] = dice.outside(1, 45) as u32,
        1 => p.numbers[1] = dice.outside(1, 36) as u32,
        2 => p.numbers[2] = dice.outside(4, 12) as u32,
        3 => {
            spoil(dice, &mut s, width as u32);
            written = None;
        }
        _ => (),
    }
    let differs = |p: Picture, s: &Step, store: &[i32]| -> Result<(u32, Spellings), String> {
        let lent = s.stored.min(store.len());
        let mut left = store.to_vec();
        let (a, spellings) = ours(p, s, &mut left[..lent]);
        let (b, six) = due(p, s, lent, &|place| stored(p.numbers[0], store, place));
        let mut due = store.to_vec();
        if let Some(six) = six {
            let base = record(p.numbers[0], p.numbers[3] as usize);
            for (i, (_, k)) in six.iter().enumerate() {
                let at = base + 15 * i;
                due[at] = k.dc;
                due[at + 1..at + 8].copy_from_slice(&k.row);
                due[at + 8..at + 15].copy_from_slice(&k.column);
                due[base + 90] = k.quantiser;
            }
        }
        let places: Vec<usize> = (0..due.len()).filter(|&k| left[k] != due[k]).collect();
        if same(&a, spellings, &b) && places.is_empty() {
            return Ok((a.number, spellings));
        }
        Err(format!(
            "{}\n  spellings: ours {spellings:?}, lent {UNTOLD:?}\n  {} numbers of the store differ, at {:?}",
            told(&a, &b),
            places.len(),
            &places[..places.len().min(8)]
        ))
    };
    match differs(p, &s, &store) {
        Ok((number, spellings)) => {
            counts.took(number);
            if let Some(written) = written.filter(|_| number == 0) {
                counts.spells(spellings, written, || miscounted(p, &s));
            }
        }
        Err(_) => {
            let bad = |s: &Step, store: &[i32]| differs(p, s, store).is_err();
            let simple = simplest(s, simpler_steps, |s| bad(s, &store));
            let (data, at) = smallest_data(simple.data.clone(), simple.at, |data, at| {
                let (data, s) = (data.to_vec(), simple.clone());
                bad(&Step { data, at, ..s }, &store)
            });
            let s = Step { data, at, ..simple };
            // plain numbers in the store, where that still differs
            let plain = |k: usize| i32::from(k % 96 == 90);
            for k in 0..store.len() {
                let old = store[k];
                store[k] = plain(k);
                if !bad(&s, &store) {
                    store[k] = old;
                }
            }
            let others: Vec<(usize, i32)> = (0..store.len()).filter(|&k| store[k] != plain(k)).map(|k| (k, store[k])).collect();
            println!(
                "DIFFERS: {p:?}, a store of {} numbers, quantisers 1 and the others 0 but for {others:?}",
                store.len()
            );
            step_told(&s);
            println!("{}", differs(p, &s, &store).unwrap_err());
            std::process::exit(1);
        }
    }
}
