//! The intra texture part of an MPEG-4 Visual decoder (ISO/IEC 14496-2), from bits to samples: safe types over the library
//! `libvaxembro.a`, without std and without allocation.
//!
//! A [`Picture`] decodes one intra macroblock after the other, each with its neighbours in the picture; [`decode_intra_macroblock`]
//! decodes one alone. The header of a macroblock is handed in, or, by the calls `.._with_header`, read out of the bits before it;
//! [`parse_macroblock_header`] reads it by itself. Nothing is guessed: a call gives the standard's value, or it is refused by a number
//! ([`Refusal`]), and then picture, store and samples are as they were.
//!
//! One macroblock of a picture of 1 by 1, with six DC parts of difference 0:
//!
//! ```
//! use vaxembro::{Context, Decoded, Header, Matrix, Method, Picture, STORE, Spellings};
//!
//! let mut store = [0; STORE];
//! let mut samples = [0; 384];
//! let mut picture = Picture::open(1, 1, 8, Method::Two, &mut store)?;
//! let (header, context, matrix) = (Header::intra(0, 0), Context::new(8), Matrix::default());
//! let decoded = picture.decode_macroblock(&[0x6D, 0xBF], 0, header, context, &matrix, &mut samples)?;
//! assert_eq!(decoded, Decoded { bits: 16, position: 16, spellings: Spellings::default() });
//! assert_eq!(samples, [128; 384]);
//! # Ok::<(), vaxembro::Refusal>(())
//! ```
#![no_std]
#![deny(missing_docs)]

mod alone;
mod answer;
pub mod ffi;
mod given;
mod header;
mod picture;
mod refusal;

pub use alone::{Neighbours, decode_intra_macroblock, decode_intra_macroblock_with_header};
pub use answer::{Decoded, Spellings};
pub use given::{Context, Header, Matrix, MbType, Method};
pub use header::{HeaderFields, parse_macroblock_header};
pub use picture::{Picture, STORE};
pub use refusal::Refusal;

/// The samples of a macroblock: luma 256 row by row, Cb 64, Cr 64; each 0 to 2^depth - 1.
pub type Samples = [i32; 384];
