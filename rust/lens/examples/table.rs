//! Builds the table of a camera file in turns, with a progress bar on standard error.
//!
//!     cargo run --example table -- FILE                       prints the table, as print-table does
//!     cargo run --example table -- FILE look X Y [X Y]...     the pixel at each point, out of the table
//!     cargo run --example table -- FILE list U V [U V]...     the point of each pixel
//!
//! A camera file is two lines, with tabs between the fields (README.md of the repository, "Print a table");
//! tools/camera-file writes one from decimal numbers. Ends with status 0, 1 if the camera is refused, 2 if it could not
//! run.
use lens::{Camera, Job, Model, Observation, Pixel, Point, Refusal, Table, Turn};
use std::error::Error;
use std::io::{self, Write};
use std::{env, fs, process};

/// What a camera file asks for.
struct Asked {
    camera: Camera,
    width: u32,
    height: u32,
}

fn read(text: &str) -> Result<Asked, Box<dyn Error>> {
    let lines: Vec<Vec<&str>> = text.lines().map(|line| line.split('\t').collect()).collect();
    match lines.as_slice() {
        [first, second] => match (first.as_slice(), second.as_slice()) {
            (["camera", model, width, height], ["params", patterns @ ..]) => {
                let pattern = |digits: &&str| u64::from_str_radix(digits, 16).map(f64::from_bits);
                let params = patterns.iter().map(pattern).collect::<Result<Vec<f64>, _>>()?;
                let camera = Camera::from_params(model.parse::<Model>()?, &params)?;
                Ok(Asked { camera, width: width.parse()?, height: height.parse()? })
            }
            _ => Err("it needs a line `camera` and a line `params`".into()),
        },
        _ => Err("a camera file has two lines".into()),
    }
}

/// A bar as long as what is done.
fn show(done: u64, units: u64) {
    let marks = (40 * done / units.max(1)) as usize;
    eprint!("\r[{:<40}] {done} of {units} units", "#".repeat(marks));
    if done == units {
        eprintln!();
    }
}

/// The table, in a hundred turns, and how many Newton updates its border took.
fn build(asked: &Asked) -> Result<(Table, u64), Refusal> {
    let mut job = Job::new(&asked.camera, asked.width, asked.height)?;
    let mut cells = vec![0.0; job.numbers()];
    let units = job.progress().units;
    loop {
        let turn = job.turn(&mut cells, units / 100 + 1);
        show(job.progress().done, units);
        match turn {
            Ok(Turn::Running(_)) => {}
            Ok(Turn::Finished(region)) => {
                let table = Table::new(cells, region, job.width(), job.height());
                return Ok((table, job.progress().updates));
            }
            Err(refusal) => {
                eprintln!();
                return Err(refusal);
            }
        }
    }
}

/// The listing, with the bit patterns of all numbers.
fn print(table: &Table, updates: u64, to: &mut impl Write) -> io::Result<()> {
    writeln!(to, "table\t{}\t{}\t{updates}", table.width(), table.height())?;
    let [left, top, right, bottom] = <[f64; 4]>::from(table.region()).map(f64::to_bits);
    writeln!(to, "region\t{left:016x}\t{top:016x}\t{right:016x}\t{bottom:016x}")?;
    for (v, row) in table.rows().enumerate() {
        for (u, cell) in row.enumerate() {
            let [a, b] = cell.map(f32::to_bits);
            writeln!(to, "cell\t{u}\t{v}\t{a:08x}\t{b:08x}")?;
        }
    }
    to.flush()
}

fn look(table: &Table, points: &[[f64; 2]]) {
    for &[x, y] in points {
        match table.lookup(Point::new(x, y)) {
            Ok(pixel) => println!("point {x} {y}: pixel {} {}", pixel.u, pixel.v),
            Err(refusal) => println!("point {x} {y}: {refusal}"),
        }
    }
}

fn list(camera: &Camera, pixels: &[[f64; 2]]) -> Result<(), Refusal> {
    let mut list: Vec<Observation> = pixels.iter().map(|&pixel| Pixel::from(pixel).into()).collect();
    camera.observe(&mut list)?;
    for seen in &list {
        let Pixel { u, v } = seen.pixel();
        match seen.answer() {
            Some(Ok(found)) if found.settled => println!("pixel {u} {v}: point {} {}", found.point.x, found.point.y),
            Some(Ok(found)) => println!("pixel {u} {v}: point {} {}, not settled", found.point.x, found.point.y),
            Some(Err(refusal)) => println!("pixel {u} {v}: {refusal}"),
            None => {}
        }
    }
    Ok(())
}

fn run(words: &[String]) -> Result<(), Box<dyn Error>> {
    let usage = "usage: table FILE [look X Y [X Y]... | list U V [U V]...]";
    let (file, what, rest) = match words {
        [file] => (file, "print", &[][..]),
        [file, what, rest @ ..] => (file, what.as_str(), rest),
        [] => return Err(usage.into()),
    };
    let numbers =
        rest.iter().map(|word| word.parse()).collect::<Result<Vec<f64>, _>>().map_err(|e| format!("{usage}: {e}"))?;
    if !["print", "look", "list"].contains(&what) || numbers.len() % 2 != 0 {
        return Err(usage.into());
    }
    let pairs: Vec<[f64; 2]> = numbers.chunks_exact(2).map(|two| [two[0], two[1]]).collect();
    let asked = read(&fs::read_to_string(file).map_err(|e| format!("{file}: {e}"))?)?;
    if what == "list" {
        return Ok(list(&asked.camera, &pairs)?);
    }
    let (table, updates) = build(&asked)?;
    if what == "look" {
        look(&table, &pairs);
        return Ok(());
    }
    Ok(print(&table, updates, &mut io::BufWriter::new(io::stdout().lock()))?)
}

fn main() {
    let words: Vec<String> = env::args().skip(1).collect();
    if let Err(error) = run(&words) {
        let status = match error.downcast_ref::<Refusal>() {
            Some(refusal) => {
                println!("refused\t{}", refusal.number());
                1
            }
            None => 2,
        };
        eprintln!("table: {error}");
        process::exit(status);
    }
}
