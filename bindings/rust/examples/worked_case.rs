// Decodes the specification's worked case: one macroblock of a picture of 1 by 1.
use vaxembro::{Context, Header, Matrix, Method, Picture, Refusal, STORE};

fn main() -> Result<(), Refusal> {
    let mut store = [0; STORE];
    let mut samples = [0; 384];
    let mut picture = Picture::open(1, 1, 8, Method::Two, &mut store)?;
    let decoded = picture.decode_macroblock(
        &[0x6D, 0xBF],
        0,
        Header::intra(0, 0),
        Context::new(8),
        &Matrix::default(),
        &mut samples,
    )?;
    let least = samples.iter().min().unwrap();
    let greatest = samples.iter().max().unwrap();
    println!("(bits {}), {least} {greatest}", decoded.bits);
    Ok(())
}
