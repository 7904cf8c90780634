// The transform alone.
use super::lines::Record;
use crate::common::setting::Block;

fn at(values: &[(usize, usize, i32)]) -> Block {
    let mut block = [[0; 8]; 8];
    for &(v, u, value) in values {
        block[v][u] = value;
    }
    block
}

fn single(v: usize, u: usize, value: i32) -> Block {
    at(&[(v, u, value)])
}

fn four(a: i32, b: i32, c: i32, d: i32) -> Block {
    at(&[(0, 1, a), (1, 0, b), (2, 3, c), (5, 6, d)])
}

fn quarters(a: i32, b: i32, c: i32, d: i32) -> Block {
    at(&[(0, 0, a), (0, 4, b), (4, 0, c), (4, 4, d)])
}

fn noise(n: u64) -> u64 {
    let a = (n * 1_103_515_245 + 12_345) % 2_147_483_648;
    let b = (a / 8 * 48_271 + a % 8) % 2_147_483_647;
    (b * 69_621 + 11) % 2_147_483_648
}

fn scaled(r: u32, spare: u32) -> i32 {
    (r >> spare) as i32 - (32_768u32 >> spare) as i32
}

fn value(kind: u32, n: u64, spare: u32) -> i32 {
    let r = (noise(n) / 16 % 65_536) as u32;
    match kind {
        1 if noise(n + 1_000_000_000) / 256 % 8 != 0 => 0,
        2 => scaled(if r % 2 == 0 { 0 } else { 65_535 }, spare),
        _ => scaled(r, spare),
    }
}

fn block_of(kind: u32, seed: u64, spare: u32) -> Block {
    let mut block = [[0; 8]; 8];
    for v in 0..8 {
        for u in 0..8 {
            block[v][u] = value(kind, seed * 64 + (v * 8 + u) as u64, spare);
        }
    }
    block
}

// Under both rules.
fn both(record: &mut Record, values: Block, depth: u32) {
    record.transform(&values, depth, false);
    record.transform(&values, depth, true);
}

// Zeros, and at each end of the depth's limits a DC alone and every value.
fn ends(record: &mut Record, depth: u32) {
    let limit = 1i32 << (depth + 3);
    both(record, [[0; 8]; 8], depth);
    both(record, single(0, 0, -limit), depth);
    both(record, single(0, 0, limit - 1), depth);
    both(record, [[-limit; 8]; 8], depth);
    both(record, [[limit - 1; 8]; 8], depth);
}

// Depths and values.
fn refused(record: &mut Record) {
    for depth in [0, 3, 13, 1 << 30] {
        both(record, [[0; 8]; 8], depth);
    }
    both(record, [[1_000_000; 8]; 8], 13);
    for depth in 4..=12 {
        let limit = 1i32 << (depth + 3);
        both(record, single(0, 0, -limit - 1), depth);
        both(record, single(7, 7, limit), depth);
    }
    both(record, single(3, 4, i32::MIN), 8);
    both(record, single(4, 3, i32::MAX), 8);
}

// One value at each place, the rules in turn.
fn singles(record: &mut Record, value: i32, depth: u32, step: usize) {
    for k in (0..64).step_by(step) {
        record.transform(&single(k / 8, k % 8, value), depth, k / step % 2 == 1);
    }
}

// A DC alone, and values at multiples of pi / 4, whose samples are exact halves.
fn half(record: &mut Record, n: i32) {
    both(record, single(0, 0, n), 8);
    both(record, single(0, 0, -n), 8);
    both(record, quarters(n, 8, -16, n), 8);
    both(record, quarters(-n, 12, 4, 8), 8);
}

// A sample within 1e-8 of a half (the nearest to 1e-8 by 9.96e-9), and just outside (from 1.03e-8 on).
fn near_halves(record: &mut Record) {
    both(record, four(1682, 431, -324, -751), 8);
    both(record, four(-565, 992, 55, -185), 8);
    both(record, four(643, 694, -765, 873), 8);
    both(record, four(-34, -431, 381, -945), 8);
    both(record, four(369, 579, 1527, 1196), 8);
    both(record, four(1393, 1803, -1483, 1393), 8);
    both(record, four(-909, -965, -1101, -332), 8);
}

pub fn all(record: &mut Record) {
    (4..=12).for_each(|depth| ends(record, depth));
    refused(record);
    for depth in 4..=12 {
        for kind in 0..3 {
            both(record, block_of(kind, u64::from(depth), 12 - depth), depth);
        }
    }
    singles(record, 2047, 8, 1);
    singles(record, -2048, 8, 3);
    singles(record, 1, 8, 3);
    singles(record, -100, 12, 3);
    [4, 12, 20, 1020, 2044].into_iter().for_each(|n| half(record, n));
    near_halves(record);
}
