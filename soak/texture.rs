// The code tables that sentences are drawn from, out of the stored output of `code_tables`.
use std::sync::OnceLock;

#[derive(Clone, Copy)]
pub enum DcComponent {
    Luminance,
    Chrominance,
}

#[derive(Clone, Copy)]
pub enum TcoefTable {
    Intra,
    Inter,
}

// A code's bits and length.
type Code = (u32, u8);
// Of a reversible code the intra event, then the inter one.
type Reversible = (u32, u8, u8, u8, u16, u8, u8, u16);

struct Tables {
    dc: [Vec<(u16, u8, u8)>; 2],
    plain: [Vec<(u32, u8, u8, u8, u16)>; 2],
    reversible: Vec<Reversible>,
    // table, last, level, greatest run
    rmax: Vec<(usize, u16, u16, u32)>,
}

// The lines of one table: each code, and the numbers after it.
fn lines(name: &'static str) -> impl Iterator<Item = (Code, Vec<u16>)> {
    let all = include_str!("../crates/code_tables/stdout").lines();
    all.filter_map(move |line| line.strip_prefix(name)?.strip_prefix(' ')).map(|rest| {
        let (code, numbers) = rest.split_once(' ').expect("a code and numbers");
        let bits = u32::from_str_radix(code, 2).expect("a code");
        (
            (bits, code.len() as u8),
            numbers.split(' ').map(|n| n.parse().expect("a number")).collect(),
        )
    })
}

fn tables() -> &'static Tables {
    static ALL: OnceLock<Tables> = OnceLock::new();
    ALL.get_or_init(|| {
        let names = ["intra", "inter"];
        let rmax = |k: usize| lines(names[k]).map(move |(_, n)| (k, n[0], n[2], n[4].into()));
        let both = lines("rvlc-intra").zip(lines("rvlc-inter"));
        Tables {
            dc: ["luminance", "chrominance"].map(|name| lines(name).map(|((bits, len), n)| (bits as u16, len, n[0] as u8)).collect()),
            plain: names.map(|name| {
                lines(name)
                    .map(|((bits, len), n)| (bits, len, n[0] as u8, n[1] as u8, n[2]))
                    .collect()
            }),
            reversible: both
                .map(|(((bits, len), a), (code, b))| {
                    assert_eq!(code, (bits, len));
                    (bits, len, a[0] as u8, a[1] as u8, a[2], b[0] as u8, b[1] as u8, b[2])
                })
                .collect(),
            rmax: rmax(0).chain(rmax(1)).collect(),
        }
    })
}

pub fn dc_size_table(component: DcComponent) -> &'static [(u16, u8, u8)] {
    &tables().dc[component as usize]
}

pub fn tcoef_table(table: TcoefTable) -> &'static [(u32, u8, u8, u8, u16)] {
    &tables().plain[table as usize]
}

pub fn rvlc_tcoef_table() -> &'static [Reversible] {
    &tables().reversible
}

pub fn rmax(table: TcoefTable, last: bool, level: i32) -> Option<u32> {
    let row = |r: &&(usize, u16, u16, u32)| (r.0, r.1 == 1, i32::from(r.2)) == (table as usize, last, level);
    tables().rmax.iter().find(row).map(|r| r.3)
}
