//! Measures lowerings: the Rattle's, and the Rust text's.

mod images;
mod rattle;

use std::hint::black_box;
use std::path::Path;
use std::time::Instant;
use std::{env, fs};

use compare::{plan, records};
use images::Group;
use published::prepared::Prepared;
use rattle::{Given, Lent};

const USAGE: &str = "bench times              prints nanoseconds for one lowering, by groups of images
bench write FOLDER       writes each group's images to a file of the folder
bench spend PART FILE ROUNDS  lowers the images of such a file so often, for a count of instructions,
                         and prints how many images there are; PART is rust, rattle, read, lone or lone_read";

/// A measurement is the least of so many, each at least so long.
const REPEATS: usize = 301;
const LEAST_SECONDS: f64 = 0.001;

/// One side, the reading alone, or a lone wildcard and its reading in place of each image.
const PARTS: [&str; 5] = ["rust", "rattle", "read", "lone", "lone_read"];

/// An image, ready for both sides.
struct Ready {
    prepared: Prepared,
    given: Given,
}

fn main() {
    let arguments: Vec<String> = env::args().skip(1).collect();
    let words: Vec<&str> = arguments.iter().map(String::as_str).collect();
    match words[..] {
        ["times"] => images::groups().iter().for_each(print_times),
        ["write", folder] => write(Path::new(folder)),
        ["spend", part, file, rounds] => {
            let images = plan::stored(Path::new(file)).given;
            let tables = images.map(|image| image::read(&image).expect("an image")).collect();
            let entries = fs::read_to_string(Path::new(file).with_extension("entries")).expect("a file");
            let entries = entries.parse().expect("a number");
            let group = Group { name: file.to_owned(), images: tables, entries };
            let mut side = Side::new(part, ready(&group));
            side.spend(rounds.parse().expect("a number"));
            println!("{}", side.images.len());
        }
        _ => eprintln!("{USAGE}"),
    }
}

/// A file for each group, numbered, and its name and the count of its entries in others.
fn write(folder: &Path) {
    for (number, group) in images::groups().iter().enumerate() {
        let list: Vec<u8> =
            group.images.iter().flat_map(|m| records::entry(records::LISTING, &m.encode())).collect();
        fs::write(folder.join(format!("{number:02}.list")), list).expect("written");
        fs::write(folder.join(format!("{number:02}.name")), &group.name).expect("written");
        fs::write(folder.join(format!("{number:02}.entries")), group.entries.to_string()).expect("written");
    }
}

/// The images of a group, for which both sides make the same, after document 02's change of the tests of discriminants.
fn ready(group: &Group) -> Vec<Ready> {
    let mut lent = Lent::new();
    let mut all = Vec::new();
    for tables in &group.images {
        let Some(place_type) = tables.root_type(tables.patterns.len() - 1) else { continue };
        let prepared = Prepared::new(tables, place_type, group.entries);
        let given = Given::new(tables, place_type, group.entries);
        let made = prepared.lower_parted();
        assert_eq!(made, lent.lower(&given), "{}", group.name);
        assert_eq!(lent.read(&given), 2);
        if made.is_some() {
            all.push(Ready { prepared, given });
        }
    }
    all
}

struct Side {
    part: &'static str,
    images: Vec<Ready>,
    lone: Given,
    lent: Lent,
}

impl Side {
    fn new(part: &str, images: Vec<Ready>) -> Side {
        let part = PARTS.into_iter().find(|&known| known == part).expect("a part");
        Side { part, images, lone: Given::new(&images::lone(), 0, 0), lent: Lent::new() }
    }

    /// All images, so often.
    fn spend(&mut self, rounds: usize) {
        for _ in 0..rounds {
            for image in &self.images {
                match self.part {
                    "rust" => {
                        image.prepared.enter();
                        black_box(image.prepared.lower());
                    }
                    "rattle" => {
                        black_box(self.lent.lower(&image.given));
                    }
                    "read" => {
                        black_box(self.lent.read(&image.given));
                    }
                    "lone" => {
                        black_box(self.lent.lower(&self.lone));
                    }
                    _ => {
                        black_box(self.lent.read(&self.lone));
                    }
                }
            }
        }
    }

    /// Seconds for so many rounds of a part.
    fn seconds(&mut self, part: &'static str, rounds: usize) -> f64 {
        self.part = part;
        let started = Instant::now();
        self.spend(rounds);
        started.elapsed().as_secs_f64()
    }

    /// Nanoseconds for one image, part by part; the parts are measured in turn.
    fn times(&mut self) -> [f64; 5] {
        let rounds = PARTS.map(|part| {
            let mut rounds = 1;
            while self.seconds(part, rounds) < LEAST_SECONDS {
                rounds *= 2;
            }
            rounds
        });
        let mut least = [f64::INFINITY; 5];
        for _ in 0..REPEATS {
            for number in 0..PARTS.len() {
                least[number] = least[number].min(self.seconds(PARTS[number], rounds[number]));
            }
        }
        std::array::from_fn(|number| least[number] * 1e9 / (rounds[number] * self.images.len()) as f64)
    }
}

fn print_times(group: &Group) {
    let mut side = Side::new("rust", ready(group));
    let [rust, rattle, read, lone, lone_read] = side.times();
    let clear = lone - lone_read;
    let lowering = rattle - read - clear;
    println!(
        "| {} | {} | {rust:.0} | {rattle:.0} | {:.2} | {read:.0} | {clear:.0} | {lowering:.0} |",
        group.name,
        side.images.len(),
        rattle / rust
    );
}
