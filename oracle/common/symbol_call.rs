// DC parts, events and event lists: the calls, and what they must give.
use super::numbers::{data_fine, of_scan};
use super::sentence::{component, table};
use super::stopped::{dc_codes, event_codes, of_texture};
use crate::bitreader::BitReader;
use crate::scan;
use crate::texture;

#[derive(Clone, Copy, Debug)]
pub enum Call {
    Dc { chroma: bool },
    Event { reversible: bool, inter: bool },
    List { reversible: bool, inter: bool, dc_coded: bool },
}

// A number (0: accepted), its figure, the position after the call, and the values: size and difference; last, run and level; the 64 places.
#[derive(Clone, Copy, PartialEq, Debug)]
pub struct Answer {
    pub number: u32,
    pub figure: u32,
    pub position: usize,
    pub values: [i32; 64],
}

// Before the call: numbers that no reading gives.
pub fn lent(at: usize) -> Answer {
    let mut values = [0; 64];
    for (i, v) in values.iter_mut().enumerate() {
        *v = 1_000_000 + i as i32;
    }
    Answer {
        number: 0,
        figure: 0,
        position: at,
        values,
    }
}

// What the original gives, with 17 where it is due, or document 01's 11, which comes before any bit.
pub fn due(call: Call, data: &[u8], at: usize) -> Answer {
    let mut a = lent(at);
    if let Call::Event { .. } = call {
        a.values[0] = 1;
    }
    if !data_fine(data, at) {
        a.number = 11;
        return a;
    }
    let mut br = BitReader::new(data);
    br.skip_bits(at).unwrap();
    let refusal = match call {
        Call::Dc { chroma } => match texture::decode_intra_dc(&mut br, component(chroma)) {
            Ok(dc) => {
                a.values[..2].copy_from_slice(&[dc.size.into(), dc.differential]);
                None
            }
            Err(e) => Some(of_texture(e, &br, dc_codes(component(chroma)))),
        },
        Call::Event { reversible, inter } => {
            let read = if reversible {
                texture::decode_ac_event_rvlc
            } else {
                texture::decode_ac_event
            };
            match read(&mut br, table(inter)) {
                Ok(v) => {
                    a.values[..3].copy_from_slice(&[v.last.into(), v.run as i32, v.level]);
                    None
                }
                Err(e) => Some(of_texture(e, &br, event_codes(reversible, table(inter)))),
            }
        }
        Call::List {
            reversible,
            inter,
            dc_coded,
        } => {
            let read = if reversible {
                texture::decode_ac_events_rvlc
            } else {
                texture::decode_ac_events
            };
            match read(&mut br, table(inter)) {
                Ok(events) => match scan::events_to_qfs(&events, dc_coded.then_some(0)) {
                    Ok(qfs) => {
                        a.values = qfs;
                        None
                    }
                    Err(e) => Some(of_scan(e)),
                },
                Err(e) => Some(of_texture(e, &br, event_codes(reversible, table(inter)))),
            }
        }
    };
    match refusal {
        None => a.position = br.bit_position(),
        Some((number, figure)) => (a.number, a.figure) = (number, figure),
    }
    a
}
