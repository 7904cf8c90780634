// A picture that differs, made small: fewer rows and columns, fewer calls, plainer ones, fewer bits.
use super::layer::Step;
use super::play::{Play, step_told};
use crate::common::bits::bytes_of;
use crate::common::heading::PLAIN;
use crate::common::setting::simpler_matrices;
use crate::common::smallest::{simplest, smallest_data};

#[derive(Clone)]
pub struct Scene {
    pub width: u32,
    pub height: u32,
    pub depth: u32,
    pub method: bool,
    pub beyond: usize,
    pub steps: Vec<Step>,
}

impl Scene {
    fn opened(&self) -> Play {
        Play::opened(self.width, self.height, self.depth, self.method, self.beyond)
    }

    // The number of the first step that differs, and how.
    fn differs(&self) -> Option<(usize, String)> {
        let mut play = self.opened();
        (0..self.steps.len()).find_map(|k| play.step(&self.steps[k]).err().map(|text| (k, text)))
    }

    // Where each step's macroblock lies; a refused one and the next have the same.
    fn places(&self) -> Vec<(u32, u32)> {
        let mut play = self.opened();
        let mut place = |s: &Step| {
            let n = play.layer.picture.numbers[3];
            play.layer.call(s, s.stored.min(play.store.len()));
            (n % self.width, n / self.width)
        };
        self.steps.iter().map(&mut place).collect()
    }

    // Without its upper or lower, left or right part.
    fn chopped(&self) -> Vec<Scene> {
        let places = self.places();
        let chop = |width: u32, height: u32, kept: &dyn Fn(u32, u32) -> bool| {
            let steps = self.steps.iter().zip(&places).filter(|(_, p)| kept(p.0, p.1));
            Scene {
                width,
                height,
                steps: steps.map(|(s, _)| s.clone()).collect(),
                ..*self
            }
        };
        let (w, h) = (self.width, self.height);
        let mut all = Vec::new();
        for n in [h / 2, 1].into_iter().filter(|n| 0 < *n && *n < h) {
            all.push(chop(w, h - n, &|_, y| y >= n));
            all.push(chop(w, h - n, &|_, y| y < h - n));
        }
        for n in [w / 2, 1].into_iter().filter(|n| 0 < *n && *n < w) {
            all.push(chop(w - n, h, &|x, _| x >= n));
            all.push(chop(w - n, h, &|x, _| x < w - n));
        }
        all
    }

    // The steps that the difference needs: none after it, no refused one, and plain ones in long runs.
    fn thinned(mut self) -> Scene {
        let last = self.differs().expect("a difference that stays").0;
        self.steps.truncate(last + 1);
        let places = self.places();
        for k in (0..last).rev().filter(|&k| places[k] == places[k + 1]) {
            let step = self.steps.remove(k);
            if self.differs().is_none() {
                self.steps.insert(k, step);
            }
        }
        let mut width = self.steps.len();
        while width > 0 {
            for from in (0..self.steps.len()).step_by(width) {
                let to = (from + width).min(self.steps.len());
                let old = self.steps[from..to].to_vec();
                self.steps[from..to].iter_mut().for_each(|s| *s = plain(s));
                if self.steps[from..to] != old && self.differs().is_none() {
                    self.steps[from..to].clone_from_slice(&old);
                }
            }
            width /= 2;
        }
        self
    }

    // This step plainer and with fewer bits.
    fn plainer(mut self, k: usize) -> Scene {
        let mut trial = self.clone();
        let mut differs = |s: &Step| {
            trial.steps[k] = s.clone();
            trial.differs().is_some()
        };
        let mut step = simplest(self.steps[k].clone(), simpler_steps, &mut differs);
        let (data, at) = smallest_data(step.data.clone(), step.at, |data, at| {
            let data = data.to_vec();
            differs(&Step { data, at, ..step.clone() })
        });
        (step.data, step.at) = (data, at);
        self.steps[k] = step;
        self
    }

    fn simpler(&self) -> Vec<Scene> {
        let mut all = Vec::new();
        if self.beyond > 0 {
            all.push(Scene { beyond: 0, ..self.clone() });
        }
        if self.method {
            all.push(Scene {
                method: false,
                ..self.clone()
            });
        }
        if self.depth != 8 {
            all.push(Scene { depth: 8, ..self.clone() });
        }
        all
    }
}

// The same call without bits, but for its header: no block coded and no DC codes.
fn plain(s: &Step) -> Step {
    let mut t = s.clone();
    let bits = if s.in_bits { PLAIN.bits() } else { Vec::new() };
    t.at = bytes_of(&mut t.data, &bits, 0, 0);
    t.flags = [false; 6];
    t.header.cbpy = 0;
    t.header.cbpc = 0;
    t
}

// Without bits, or with one thing plain.
pub fn simpler_steps(s: &Step) -> Vec<Step> {
    let mut all = Vec::new();
    let mut with = |change: &dyn Fn(&mut Step)| {
        let mut t = s.clone();
        change(&mut t);
        if t != *s {
            all.push(t);
        }
    };
    with(&|t| *t = plain(t));
    simpler_matrices(&s.matrix).iter().for_each(|w| with(&|t| t.matrix = *w));
    with(&|t| t.quantiser_scale = 1);
    (0..6).filter(|&k| s.flags[k]).for_each(|k| with(&|t| t.flags[k] = false));
    if s.room > 384 {
        with(&|t| t.room = 384);
    }
    with(&|t| t.stored = usize::MAX);
    if !s.in_bits {
        s.header.simpler().iter().for_each(|h| with(&|t| t.header = *h));
    }
    all
}

// Says the difference, and then in its smallest form.
pub fn smallest(scene: Scene) -> ! {
    let (step, text) = scene.differs().expect("a difference that stays");
    println!("DIFFERS: {} by {}, call {step}\n{text}", scene.width, scene.height);
    let mut scene = simplest(scene, Scene::chopped, |s| s.differs().is_some());
    for _ in 0..2 {
        scene = scene.thinned();
        scene = simplest(scene, Scene::chopped, |s| s.differs().is_some());
        for k in 0..scene.steps.len() {
            scene = scene.plainer(k);
        }
        scene = simplest(scene, Scene::simpler, |s| s.differs().is_some());
    }
    println!(
        "DIFFERS: {} by {} at depth {}, method 1 {}, {} more numbers of store",
        scene.width, scene.height, scene.depth, scene.method, scene.beyond
    );
    for same in scene.steps.chunk_by(|a, b| a == b) {
        println!("  {} calls of", same.len());
        step_told(&same[0]);
    }
    println!("{}", scene.differs().expect("a difference that stays").1);
    std::process::exit(1);
}
