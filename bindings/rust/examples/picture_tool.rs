// Writes pictures so that a person can look at them:
//     picture_tool FILE PREFIX
// FILE holds the lines that `still` reads. Picture N becomes PREFIX-N.pgm, its luma, and PREFIX-N.ppm, in colour. What was not decoded
// is black. Chroma is repeated, and by BT.601 made into RGB: that is for looking only and outside the proof, and so are the files.
use std::error::Error;
use std::io::Write;
use vaxembro::{Context, Header, Matrix, MbType, Method, Picture, STORE};

enum Form {
    Picture {
        width: u32,
        height: u32,
        depth: u32,
        method: Method,
    },
    Mb {
        header: Header,
        context: Context,
        data: Vec<u8>,
    },
}

// Decimal, at most so much.
fn number(word: &str, most: u32) -> Option<u32> {
    let digits = !word.is_empty() && word.bytes().all(|b| b.is_ascii_digit());
    let n = word.trim_start_matches('0');
    (digits && n.len() <= 5).then(|| n.parse().unwrap_or(0)).filter(|&n| n <= most)
}

fn bytes(word: &str) -> Option<Vec<u8>> {
    let digits: Option<Vec<u32>> = word.chars().map(|c| c.to_digit(16)).collect();
    let digits = digits.filter(|d| !d.is_empty() && d.len() % 2 == 0)?;
    Some(digits.chunks(2).map(|two| (16 * two[0] + two[1]) as u8).collect())
}

// A line's form; none where it is malformed.
fn form(line: &str) -> Option<Form> {
    if line.len() > 32_768 {
        return None;
    }
    let words: Vec<&str> = line.strip_prefix('(')?.strip_suffix(')')?.split(' ').collect();
    match words[..] {
        ["picture", width, height, depth, method] => Some(Form::Picture {
            width: number(width, 65_535)?,
            height: number(height, 65_535)?,
            depth: number(depth, 65_535)?,
            method: [Method::One, Method::Two][number(method, 2)?.checked_sub(1)? as usize],
        }),
        ["mb", quantiser, ac_pred, kind, cbpy, cbpc, hex] => {
            let mut context = Context::new(number(quantiser, 65_535)?);
            context.ac_pred_flag = number(ac_pred, 1)? == 1;
            let (not_coded, mb_type) = match kind {
                "intra" => (false, MbType::Intra),
                "intraq" => (false, MbType::IntraQ),
                "inter" => (false, MbType::Inter),
                "interq" => (false, MbType::InterQ),
                "inter4v" => (false, MbType::Inter4V),
                "none" => (false, MbType::Missing),
                "skipped" => (true, MbType::Missing),
                _ => return None,
            };
            let header = Header {
                not_coded,
                mb_type,
                cbpy: number(cbpy, 255)? as u8,
                cbpc: number(cbpc, 255)? as u8,
            };
            Some(Form::Mb {
                header,
                context,
                data: bytes(hex)?,
            })
        }
        _ => None,
    }
}

// A picture's samples: luma, Cb and Cr row by row.
struct Canvas {
    width: usize,
    height: usize,
    depth: u32,
    planes: [Vec<i32>; 3],
}

impl Canvas {
    fn new(width: u32, height: u32, depth: u32) -> Canvas {
        let (width, height) = (16 * width as usize, 16 * height as usize);
        let chroma = vec![1 << (depth - 1); width * height / 4];
        Canvas {
            width,
            height,
            depth,
            planes: [vec![0; width * height], chroma.clone(), chroma],
        }
    }

    // The 384 samples of the macroblock in this column and row.
    fn put(&mut self, column: usize, row: usize, samples: &[i32; 384]) {
        for (plane, from, side) in [(0, 0, 16), (1, 256, 8), (2, 320, 8)] {
            let width = self.width * side / 16;
            for y in 0..side {
                let at = width * (side * row + y) + side * column;
                self.planes[plane][at..at + side].copy_from_slice(&samples[from + side * y..from + side * (y + 1)]);
            }
        }
    }

    fn colour(&self, x: usize, y: usize) -> [i32; 3] {
        let chroma = self.width / 2 * (y / 2) + x / 2;
        let step = f64::from(1 << self.depth) / 256.0;
        let luma = 1.164 * (f64::from(self.planes[0][self.width * y + x]) - 16.0 * step);
        let cb = f64::from(self.planes[1][chroma]) - 128.0 * step;
        let cr = f64::from(self.planes[2][chroma]) - 128.0 * step;
        let rgb = [luma + 1.596 * cr, luma - 0.813 * cr - 0.392 * cb, luma + 2.017 * cb];
        rgb.map(|v| (v.round() as i32).clamp(0, self.most()))
    }

    fn most(&self) -> i32 {
        (1 << self.depth) - 1
    }

    // PGM or PPM, as `kind` says, with two bytes a sample above 255.
    fn write(&self, path: &str, kind: &str, samples: impl Iterator<Item = i32>) -> std::io::Result<()> {
        let mut file = std::io::BufWriter::new(std::fs::File::create(path)?);
        write!(file, "{kind}\n{} {}\n{}\n", self.width, self.height, self.most())?;
        for z in samples {
            file.write_all(&(z as u16).to_be_bytes()[usize::from(self.most() < 256)..])?;
        }
        file.flush()
    }

    fn save(&self, prefix: &str, n: usize) -> std::io::Result<()> {
        self.write(&format!("{prefix}-{n}.pgm"), "P5", self.planes[0].iter().copied())?;
        let places = (0..self.width * self.height).map(|k| (k % self.width, k / self.width));
        self.write(&format!("{prefix}-{n}.ppm"), "P6", places.flat_map(|(x, y)| self.colour(x, y)))
    }
}

// The picture that is open, and how many were before it.
struct Still {
    picture: Option<(Picture<'static>, Canvas)>,
    prefix: String,
    saved: usize,
}

impl Still {
    // A refused opening leaves the open picture as it is.
    fn open(&mut self, width: u32, height: u32, depth: u32, method: Method) -> std::io::Result<()> {
        // each picture has a store of its own, until the program ends
        match Picture::open(width, height, depth, method, vec![0; STORE * 45].leak()) {
            Ok(picture) => {
                self.save()?;
                self.picture = Some((picture, Canvas::new(width, height, depth)));
            }
            Err(refusal) => println!("(picture {width} {height} ..): {refusal}"),
        }
        Ok(())
    }

    fn decode(&mut self, header: Header, context: Context, data: &[u8]) {
        let Some((picture, canvas)) = &mut self.picture else { return };
        let (due, mut samples) = (picture.due(), [0; 384]);
        let result = picture.decode_macroblock(data, 0, header, context, &Matrix::default(), &mut samples);
        match (result, due) {
            (Ok(_), Some((column, row))) => canvas.put(column as usize, row as usize, &samples),
            (Ok(_), None) => unreachable!("a complete picture"),
            (Err(refusal), _) => println!("macroblock {}: {refusal}", picture.accepted()),
        }
    }

    fn save(&mut self) -> std::io::Result<()> {
        let Some((picture, canvas)) = &self.picture else { return Ok(()) };
        self.saved += 1;
        let (prefix, n) = (&self.prefix, self.saved);
        canvas.save(prefix, n)?;
        println!(
            "{prefix}-{n}.pgm {prefix}-{n}.ppm: {} macroblocks of {}",
            picture.accepted(),
            picture.width() * picture.height()
        );
        Ok(())
    }
}

fn main() -> Result<(), Box<dyn Error>> {
    let arguments: Vec<String> = std::env::args().collect();
    let [_, file, prefix] = &arguments[..] else {
        return Err("picture_tool FILE PREFIX".into());
    };
    let text = String::from_utf8_lossy(&std::fs::read(file)?).into_owned();
    let mut still = Still {
        picture: None,
        prefix: prefix.clone(),
        saved: 0,
    };
    for form in text.split('\n').filter_map(form) {
        match form {
            Form::Picture {
                width,
                height,
                depth,
                method,
            } => still.open(width, height, depth, method)?,
            Form::Mb { header, context, data } => still.decode(header, context, &data),
        }
    }
    still.save()?;
    Ok(())
}
