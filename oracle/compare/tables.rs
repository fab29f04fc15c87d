// Tables by the Rust's `distort_table`, asked through a camera that notes each unit; and the listing that the table printer
// owes for one.
use crate::cases::{valid_camera, wild_place, Random};
use crate::judge::{camera_refused, trace, PutIn};
use rust_text::distortion_table::distort_table;
use rust_text::dyn_camera::{DynCameraF64, Lens};
use rust_text::{ask, ImageSize, Params, COUNTS, NAMES, NO_MODEL};
use std::cell::RefCell;
use std::collections::HashSet;
use std::fmt::Write as _;
use std::io::Write as _;
use std::process::{Command, Stdio};
use std::rc::Rc;

/// What a camera file asks for.
#[derive(Clone)]
pub struct Asked {
    pub model: usize,
    pub params: Vec<f64>,
    pub width: usize,
    pub height: usize,
}

/// What the Rust's camera gave for a border sample, and the number of its refusal or 0.
#[derive(Clone, Copy)]
pub struct Sample {
    pixel: [f64; 2],
    pub point: [f64; 2],
    pub updates: u32,
    pub settled: bool,
    pub number: u8,
}

/// What the Rust's table asked its camera for, in order: each sample, and each cell's pixel, before the Rust makes f32s of it.
#[derive(Default)]
struct Notes {
    samples: Vec<Sample>,
    pixels: Vec<Option<[f64; 2]>>,
}

struct Noting {
    model: usize,
    params: Params,
    notes: Rc<RefCell<Notes>>,
}

impl Noting {
    fn ask(&self, operation: usize, at: [f64; 2]) -> [f64; 2] {
        let answer = ask::<PutIn>(self.model, operation, &self.params, at);
        [answer.numbers[0], answer.numbers[1]]
    }
}

fn finite(pair: [f64; 2]) -> bool {
    pair.iter().all(|x| x.is_finite())
}

/// 8 or 11 for a pair of increments, or 0.
pub fn increments_number(increments: [f64; 2]) -> u8 {
    match () {
        _ if increments.iter().any(|&i| i.is_finite() && i <= 0.0) => 8,
        _ if !finite(increments) => 11,
        _ => 0,
    }
}

/// The number of the multiple of 1/32 that is nearest to a finite x, of two as near the even one, if sixteen bits hold it. 32 times an
/// f64 is exact or infinite, and so is what is left of a number above its whole part.
pub fn nearest_32nd(x: f64) -> Option<i16> {
    let size = 32.0 * x.abs();
    let whole = size.floor();
    let rest = size - whole;
    let up = rest > 0.5 || rest == 0.5 && whole % 2.0 == 1.0;
    let number = (whole + up as u8 as f64).copysign(x);
    if (-32768.0..=32767.0).contains(&number) {
        Some(number as i16)
    } else {
        None
    }
}

/// Whether a finite x lies in the middle of two multiples of 1/32.
pub fn is_tie(x: f64) -> bool {
    (32.0 * x.abs()).fract() == 0.5
}

impl Lens for Noting {
    fn distort(&self, point: [f64; 2]) -> [f64; 2] {
        let pixel = self.ask(0, point);
        let sound = finite(point) && finite(pixel);
        self.notes.borrow_mut().pixels.push(if sound { Some(pixel) } else { None });
        pixel
    }
    fn undistort(&self, pixel: [f64; 2]) -> [f64; 2] {
        trace();
        let point = self.ask(1, pixel);
        let trace = trace();
        let number = match () {
            _ if trace.steep => 10,
            _ if self.model == 1 && trace.divisor <= 0.0 => 16,
            _ if !finite(point) => 11,
            _ => 0,
        };
        let sample = Sample { pixel, point, updates: trace.updates, settled: trace.settled(), number };
        self.notes.borrow_mut().samples.push(sample);
        point
    }
}

/// A table by the Rust's text, unit by unit. Behind the first unit that is refused it holds whatever the Rust works out there.
pub struct Built {
    /// Each pixel once, where the Rust first asks for it.
    pub samples: Vec<Sample>,
    /// The updates of all that the Rust asks for: it does the corners twice.
    pub updates_of_rust: u32,
    /// Two a cell, by rows.
    pub cells: Vec<u32>,
    pub region: [f64; 4],
    increments: [f64; 2],
    /// Of each cell, unless its point or its pixel isn't finite.
    pub pixels: Vec<Option<[f64; 2]>>,
}

fn too_large(pixel: [f64; 2]) -> bool {
    pixel.iter().any(|&x| (x as f32).is_infinite())
}

pub fn too_far(pixel: [f64; 2]) -> bool {
    pixel.iter().any(|&x| nearest_32nd(x).is_none())
}

impl Built {
    /// How many units come before the first that is refused, and its number: 0 if none is. In a strict job a sample that has
    /// a point is refused if it hasn't settled.
    pub fn end(&self, strict: bool) -> (usize, u8) {
        self.end_by(strict, 12, too_large)
    }

    /// The same for cells of a kind: a pixel that it doesn't hold is refused with its number.
    pub fn end_by(&self, strict: bool, number: u8, unheld: fn([f64; 2]) -> bool) -> (usize, u8) {
        let border = self.samples.len();
        let unsettled = |s: &Sample| strict && !s.settled;
        if let Some(i) = self.samples.iter().position(|s| s.number != 0 || unsettled(s)) {
            let own = self.samples[i].number;
            return (i, if own != 0 { own } else { 18 });
        }
        let spread = increments_number(self.increments);
        if spread != 0 {
            return (border - 1, spread);
        }
        let refused = self.pixels.iter().position(|pixel| pixel.map_or(true, unheld));
        match refused {
            Some(i) => (border + i, if self.pixels[i].is_none() { 11 } else { number }),
            None => (border + self.pixels.len(), 0),
        }
    }
}

impl Asked {
    pub fn random(r: &mut Random) -> Asked {
        let model = r.below(NO_MODEL);
        let (mut width, mut height) = (2 + r.below(63), 2 + r.below(63));
        if r.one_in(20) {
            (width, height) = [(2, 2048), (2048, 2), (1, 9), (9, 1), (65, 64), (4097, 2), (64, 64)][r.below(7)];
        }
        let camera = if r.one_in(4) { wild_place(r, model).params } else { valid_camera(r, model, width as f64, height as f64) };
        let mut params = camera[..COUNTS[model]].to_vec();
        if r.one_in(20) {
            match r.below(4) {
                0 => params[r.below(2)] = -0.0,
                1 => params[r.below(4)] = f64::NAN,
                2 => params.push(1.0),
                _ => params.truncate(3),
            }
        }
        Asked { model, params, width, height }
    }

    pub fn text(&self) -> String {
        let mut text = format!("camera\t{}\t{}\t{}\nparams", NAMES[self.model], self.width, self.height);
        for x in &self.params {
            write!(text, "\t{:016x}", x.to_bits()).unwrap();
        }
        text + "\n"
    }

    /// What is wrong with what is asked for, before any unit: 3, 4, 5, and 6 for the size.
    pub fn refused_at_once(&self) -> Option<u8> {
        let sides = 2..=4096;
        let sized = sides.contains(&self.width) && sides.contains(&self.height);
        camera_refused(self.model as u8, &self.params, 8 * self.params.len(), &[]).or(if sized { None } else { Some(6) })
    }

    /// The parameters, and zeros up to the most.
    pub fn filled(&self) -> Params {
        std::array::from_fn(|i| self.params.get(i).copied().unwrap_or(0.0))
    }

    /// The Rust's table.
    pub fn built(&self) -> Built {
        let notes = Rc::new(RefCell::new(Notes::default()));
        let lens = Noting { model: self.model, params: self.filled(), notes: notes.clone() };
        let size = ImageSize { width: self.width, height: self.height };
        let table = distort_table(&DynCameraF64 { lens: Box::new(lens), size });
        let Notes { samples: all, pixels } = notes.take();
        let updates_of_rust = all.iter().map(|s| s.updates).sum();
        let mut met = HashSet::new();
        let samples = all.into_iter().filter(|s| met.insert(s.pixel.map(f64::to_bits))).collect();
        let (lower, upper) = (table.region.try_lower().unwrap(), table.region.try_upper().unwrap());
        let places = (0..self.height).flat_map(|v| (0..self.width).map(move |u| (u, v)));
        let cells = places.flat_map(|(u, v)| table.table.pixel(u, v).0.map(f32::to_bits)).collect();
        let region = [lower.x, lower.y, upper.x, upper.y];
        Built { samples, updates_of_rust, cells, region, increments: table.incr().0, pixels }
    }

    /// The whole listing by the Rust's table.
    pub fn owed(&self) -> String {
        let refused = |number: u8| format!("refused\t{}\n", number);
        if let Some(number) = self.refused_at_once() {
            return refused(number);
        }
        if self.width * self.height > 4096 {
            return refused(6);
        }
        let built = self.built();
        let (_, number) = built.end(false);
        if number != 0 {
            return refused(number);
        }
        let updates: u32 = built.samples.iter().map(|s| s.updates).sum();
        let mut text = format!("table\t{}\t{}\t{}\nregion", self.width, self.height, updates);
        for edge in built.region {
            write!(text, "\t{:016x}", edge.to_bits()).unwrap();
        }
        text += "\n";
        for (i, cell) in built.cells.chunks_exact(2).enumerate() {
            let (u, v) = (i % self.width, i / self.width);
            writeln!(text, "cell\t{}\t{}\t{:08x}\t{:08x}", u, v, cell[0], cell[1]).unwrap();
        }
        text
    }

    /// What the printer writes. `printer` is its path, with whatever has to stand before it on this machine.
    pub fn printed(&self, printer: &[String]) -> String {
        let mut child = Command::new(&printer[0])
            .args(&printer[1..])
            .stdin(Stdio::piped())
            .stdout(Stdio::piped())
            .spawn()
            .expect("the table printer");
        child.stdin.take().unwrap().write_all(self.text().as_bytes()).expect("the printer's input");
        String::from_utf8_lossy(&child.wait_with_output().expect("the printer's end").stdout).into_owned()
    }
}
