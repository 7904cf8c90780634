// From an input that differs to a small one that differs too.
use super::bits::{Bits, bits_from, bytes_of};

// Takes the first simpler one that differs, as long as there is one. Each must be simpler by an order that ends.
pub fn simplest<C>(mut case: C, simpler: impl Fn(&C) -> Vec<C>, mut differs: impl FnMut(&C) -> bool) -> C {
    while let Some(next) = simpler(&case).into_iter().find(|c| differs(c)) {
        case = next;
    }
    case
}

// Values, and what is simpler than they: a number nearer to 0 (at last the half of it), one part of several made simpler, or each.
pub trait Simple: Clone {
    fn simpler(&self) -> Vec<Self>;
}

macro_rules! numbers {
    ($($number:ty)*) => {$(
        impl Simple for $number {
            fn simpler(&self) -> Vec<Self> {
                if *self == 0 {
                    return Vec::new();
                }
                #[allow(unused_comparisons)]
                let nearer = if *self > 0 { *self - 1 } else { *self + 1 };
                vec![0, nearer, *self / 2]
            }
        }
    )*};
}
numbers!(i32 u32 u8);

impl Simple for bool {
    fn simpler(&self) -> Vec<bool> {
        if *self { vec![false] } else { Vec::new() }
    }
}

impl<A: Simple, const N: usize> Simple for [A; N] {
    fn simpler(&self) -> Vec<Self> {
        let with = |k: usize, a: A| {
            let mut one = self.clone();
            one[k] = a;
            one
        };
        let each = |n: usize| self.clone().map(|a| a.simpler().into_iter().nth(n).unwrap_or(a));
        let each = if self.iter().all(|a| a.simpler().len() < 3) {
            vec![]
        } else {
            vec![each(2), each(1)]
        };
        let parts = (0..N).flat_map(|k| self[k].simpler().into_iter().map(move |a| (k, a)));
        each.into_iter().chain(parts.map(|(k, a)| with(k, a))).collect()
    }
}

macro_rules! parts {
    ($($part:ident $name:ident),*) => {
        impl<$($part: Simple),*> Simple for ($($part,)*) {
            fn simpler(&self) -> Vec<Self> {
                let ($($name,)*) = self;
                let mut all = Vec::new();
                parts!(@ all ($($name),*) $($name)*);
                all
            }
        }
    };
    (@ $all:ident $every:tt $($name:ident)*) => {
        $(parts!(# $all $name $every);)*
    };
    (# $all:ident $one:ident ($($every:ident),*)) => {
        for simple in $one.simpler() {
            let $one = &simple;
            $all.push(($($every.clone(),)*));
        }
    };
}
parts!(A a, B b);
parts!(A a, B b, C c);
parts!(A a, B b, C c, D d);
parts!(A a, B b, C c, D d, E e);
parts!(A a, B b, C c, D d, E e, F f);
parts!(A a, B b, C c, D d, E e, F f, G g);

// Cut, without some bits, or with one cleared.
pub fn smallest_bits(mut bits: Bits, mut differs: impl FnMut(&[bool]) -> bool) -> Bits {
    loop {
        let before = bits.clone();
        let mut width = bits.len();
        while width > 32 {
            for i in (0..bits.len()).step_by(width) {
                let without = [&bits[..i.min(bits.len())], bits.get(i + width..).unwrap_or(&[])].concat();
                if without.len() < bits.len() && differs(&without) {
                    bits = without;
                }
            }
            width /= 2;
        }
        for i in 0..bits.len() {
            let cut = bits[..i.min(bits.len())].to_vec();
            let without = (1..=32)
                .rev()
                .filter(|w| i + w <= bits.len())
                .map(|w| [&bits[..i], &bits[i + w..]].concat());
            let mut clear = bits.clone();
            clear.get_mut(i).into_iter().for_each(|bit| *bit = false);
            let smaller = std::iter::once(cut)
                .chain(without)
                .chain([clear])
                .find(|b| *b != bits && differs(b));
            bits = smaller.unwrap_or(bits);
        }
        if bits == before {
            return bits;
        }
    }
}

// Data and the position in it: from there on as few bits as possible, before it nothing but what makes up whole bytes; or, if that
// does not differ, cut at its end.
pub fn smallest_data(mut data: Vec<u8>, mut at: usize, mut differs: impl FnMut(&[u8], usize) -> bool) -> (Vec<u8>, usize) {
    if at > 8 * data.len() || data.len() > 65_536 {
        return (data, at);
    }
    let mut packed = Vec::new();
    let mut packed_differs = |bits: &[bool], packed: &mut Vec<u8>| {
        let at = bytes_of(packed, bits, 0, 0);
        differs(packed, at)
    };
    let bits = bits_from(&data, at);
    if packed_differs(&bits, &mut packed) {
        let bits = smallest_bits(bits, |bits| packed_differs(bits, &mut packed));
        at = bytes_of(&mut data, &bits, 0, 0);
        return (data, at);
    }
    while 8 * data.len() >= at + 8 && differs(&data[..data.len() - 1], at) {
        data.pop();
    }
    (data, at)
}

// Data in a message: its bits where it is short.
pub fn data_told(data: &[u8], at: usize) -> String {
    if at > 8 * data.len() || data.len() > 400 {
        let rest = data.get(at / 8..).unwrap_or(&[]);
        return format!(
            "at bit {at} of {} bytes, which go on with {:02x?}",
            data.len(),
            &rest[..rest.len().min(64)]
        );
    }
    let text: String = bits_from(data, at).iter().map(|&b| if b { '1' } else { '0' }).collect();
    format!("at bit {at} of {data:02x?}, whose bits from there on are {text:?}")
}
