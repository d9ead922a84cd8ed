//! Compares listings: the published Rust's, and another side's.

use std::io::{self, Write};
use std::path::PathBuf;
use std::process::ExitCode;
use std::{env, fs};

use compare::other::Other;
use compare::{calls, fits, judge, meaning, parameters, plan, run, store};
use published::How;
use published::parameters::After;

const USAGE: &str = "compare text             prints which published lines are compiled, all unchanged
compare show FILE..      prints what the Rust answers for image files
compare run OPTIONS      compares with another side:
  --other COMMAND        the other side's command line
  --count N              so many images of each sort that is made by chance
  --seed N               where chance starts
  --all                  all patterns of up to four nodes
  --counts               differences are counted and not printed
  --visits               the other side ends a listing with a line of visits
  --assigns              by pattern_match_assignment; the other side does the same
  --stored FILE          the images of a stored list too
compare images           prints the images that are kept in the repository
compare calls STDIN STDOUT  compares the lines of replay for a list of scripts
compare parameters OPTIONS  compares calls of lower_params_and_bindings with another side:
  --other COMMAND, --count N, --seed N, --counts, --visits
  --locals N             so many locals are there before; the other side does the same
  --after drop|pop       drop_until_scope of scope 0, or pop_and_drop, comes after; the same
  --stored FILE          the calls of a stored list too
compare fits --count N --seed N  prints records of questions whether patterns by chance fit
compare meaning OPTIONS  compares where listings lead values with what rustc says:
  --other COMMAND, --seed N
  --count N              so many files of 300 patterns, four values each";

/// The images that are kept are chosen from so many of each sort, by chance from this seed.
const KEPT_OF: usize = 1500;
const KEPT_SEED: u64 = 1851;

fn main() -> ExitCode {
    let arguments: Vec<String> = env::args().skip(1).collect();
    match arguments.first().map(String::as_str) {
        Some("text") => {
            print!("{}", published::COPIED);
            ExitCode::SUCCESS
        }
        Some("show") => show(&arguments[1..]),
        Some("run") => compared(&Options::read(&arguments[1..])),
        Some("images") => {
            print!("{}", store::text(plan::sources(KEPT_OF, KEPT_SEED, false)));
            ExitCode::SUCCESS
        }
        Some("calls") => replayed_calls(&arguments[1..]),
        Some("parameters") => of_parameters(&Options::read(&arguments[1..])),
        Some("fits") => {
            let options = Options::read(&arguments[1..]);
            let questions = fits::questions(options.count, options.seed);
            io::stdout().write_all(&questions).expect("the questions are written");
            ExitCode::SUCCESS
        }
        Some("meaning") => meant(&Options::read(&arguments[1..])),
        _ => {
            eprintln!("{USAGE}");
            ExitCode::from(2)
        }
    }
}

fn replayed_calls(files: &[String]) -> ExitCode {
    let read = |file: &String| fs::read(file).unwrap_or_else(|error| panic!("{file}: {error}"));
    let [given, printed] = files else { panic!("two files are wanted") };
    let printed = String::from_utf8_lossy(&read(printed)).into_owned();
    told(calls::compare(&calls::scripts(&read(given)), &printed))
}

fn show(files: &[String]) -> ExitCode {
    for file in files {
        let bytes = fs::read(file).unwrap_or_else(|error| panic!("{file}: {error}"));
        print!("{}", judge::expected(&bytes, How::default()).told());
    }
    ExitCode::SUCCESS
}

struct Options {
    other: Other,
    count: usize,
    seed: u64,
    all: bool,
    counts: bool,
    stored: Vec<PathBuf>,
}

impl Options {
    fn read(arguments: &[String]) -> Options {
        let other = Other::default();
        let mut options =
            Options { other, count: 1, seed: 1851, all: false, counts: false, stored: Vec::new() };
        let mut words = arguments.iter();
        while let Some(option) = words.next() {
            let mut value = || words.next().unwrap_or_else(|| panic!("{option} wants a value"));
            match option.as_str() {
                "--other" => options.other.set_command(value()),
                "--count" => options.count = value().parse().expect("a number"),
                "--seed" => options.seed = value().parse().expect("a number"),
                "--stored" => options.stored.push(PathBuf::from(value())),
                "--all" => options.all = true,
                "--counts" => options.counts = true,
                "--visits" => options.other.how.visits = true,
                "--assigns" => options.other.how.assigns = true,
                "--locals" => options.other.setting.locals = value().parse().expect("a number"),
                "--after" => options.other.setting.after = after(value()),
                other => panic!("no such option: {other}"),
            }
        }
        options
    }
}

fn after(word: &str) -> After {
    match word {
        "drop" => After::DropUntilScope,
        "pop" => After::PopAndDrop,
        other => panic!("no such call: {other}"),
    }
}

fn told(differing: usize) -> ExitCode {
    if differing == 0 { ExitCode::SUCCESS } else { ExitCode::FAILURE }
}

fn compared(options: &Options) -> ExitCode {
    let mut sources: Vec<_> = options.stored.iter().map(|path| plan::stored(path)).collect();
    sources.extend(plan::sources(options.count, options.seed, options.all));
    told(run::compare(sources, &options.other, options.counts))
}

fn of_parameters(options: &Options) -> ExitCode {
    let mut sources = Vec::new();
    for path in &options.stored {
        let bytes = fs::read(path).unwrap_or_else(|error| panic!("{}: {error}", path.display()));
        sources.push(plan::source("stored", parameters::read_list(&bytes).into_iter()));
    }
    sources.extend(parameters::sources(options.count, options.seed));
    told(run::compare(sources, &options.other, options.counts))
}

fn meant(options: &Options) -> ExitCode {
    let settings =
        meaning::Settings { files: options.count, patterns: 150, of_shape: 75, seed: options.seed };
    told(meaning::compare(&settings, &options.other))
}
