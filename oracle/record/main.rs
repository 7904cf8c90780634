// Draws calls, answers each by the original (11 to 15 by document 01, 17 by where its reader stands), and writes them as the program
// `replay` reads and prints them.
use crate::common::dice::Dice;
use lines::Record;

#[path = "blocks.rs"]
mod blocks;
#[path = "headers.rs"]
mod headers;
#[path = "../picture/layer.rs"]
mod layer;
#[path = "lines.rs"]
mod lines;
#[path = "macroblocks.rs"]
mod macroblocks;
#[path = "pictures.rs"]
mod pictures;
#[path = "../picture/style.rs"]
mod style;
#[path = "symbols.rs"]
mod symbols;
#[path = "transforms.rs"]
mod transforms;

pub fn main() {
    let folder = std::env::args().nth(1).expect("the folder of the program");
    let mut record = Record::default();
    symbols::all(&mut record, &mut Dice(1));
    blocks::all(&mut record, &mut Dice(2));
    macroblocks::all(&mut record, &mut Dice(3));
    pictures::all(&mut record, &mut Dice(4));
    transforms::all(&mut record);
    headers::all(&mut record, &mut Dice(5));
    record.says();
    std::fs::write(format!("{folder}/stdin"), record.asked).expect("to write stdin");
    std::fs::write(format!("{folder}/stdout"), record.due).expect("to write stdout");
}
