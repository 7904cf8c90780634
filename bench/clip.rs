// A picture of a clip, out of the lines that `still` reads: one picture, and its intra macroblocks.
use super::Stream;
use crate::common::header::Header;
use vaxembro::Method;

// The file's name without its folder and its ending.
pub fn name(file: &str) -> String {
    let path = std::path::Path::new(file);
    format!("clip {}", path.file_stem().map_or(file.into(), |s| s.to_string_lossy()))
}

pub fn read(file: &str) -> (Method, Stream) {
    let text = std::fs::read_to_string(file).expect("a clip");
    let mut lines = text.lines().map(words);
    let opening = lines.next().expect("a picture");
    assert!(opening.len() == 5 && opening[0] == "picture" && opening[3] == "8", "{file}: a picture of depth 8");
    let mut stream = Stream {
        width: number(opening[1]),
        height: number(opening[2]),
        headers: Vec::new(),
        parts: Vec::new(),
        data: Vec::new(),
    };
    for line in lines {
        assert!(line.len() == 7 && line[0] == "mb" && line[3] == "intra", "{file}: an intra macroblock");
        let header = Header {
            not_coded: false,
            mb_type: 4,
            cbpc: number(line[5]) as u8,
            ac_pred_flag: line[2] == "1",
            cbpy: number(line[4]) as u8,
        };
        stream.headers.push((header, number(line[1])));
        let start = stream.data.len();
        for digits in line[6].as_bytes().chunks(2) {
            let pair = std::str::from_utf8(digits).expect("digits");
            stream.data.push(u8::from_str_radix(pair, 16).expect("a byte"));
        }
        stream.parts.push(start..stream.data.len());
    }
    let method = if opening[4] == "1" { Method::One } else { Method::Two };
    (method, stream)
}

// The words of a bracketed line.
fn words(line: &str) -> Vec<&str> {
    line.trim_matches(['(', ')']).split(' ').collect()
}

fn number(word: &str) -> u32 {
    word.parse().expect("a number")
}
