//! Lays the published text out for the compiler. It is read from the folder that the variable
//! FITHONGU_RUST_TEXT names, by default the folder `shared` beside the checkout.
//!
//! mir.rs and pattern_matching.rs are copied byte for byte. Of lower.rs the items that are named
//! in `text/items.txt` are copied, each whole; what stands around them is `text/lower.rs`.

use std::path::{Path, PathBuf};
use std::{env, fs};

const MIR: &str = "src--src--mir.rs.txt";
const LOWER: &str = "src--src--mir--lower.rs.txt";
const PATTERNS: &str = "src--src--mir--lower--pattern_matching.rs.txt";

/// What stands beside the items of lower.rs.
const FRAMES: [&str; 8] = [
    "as_place.rs",
    "calls.rs",
    "discriminants.rs",
    "entry.rs",
    "parameters.rs",
    "replacements.rs",
    "rows.rs",
    "struck.rs",
];

fn main() {
    println!("cargo::rerun-if-env-changed=FITHONGU_RUST_TEXT");
    println!("cargo::rerun-if-changed=text");
    let here = PathBuf::from(env::var_os("CARGO_MANIFEST_DIR").expect("set by cargo"));
    let text = env::var_os("FITHONGU_RUST_TEXT").map_or_else(|| here.join("../../../shared"), PathBuf::from);
    let out = PathBuf::from(env::var_os("OUT_DIR").expect("set by cargo"));
    fs::create_dir_all(out.join("mir/lower")).expect("a folder for the text");

    let published = |name: &str| read(&text.join(name));
    write(&out.join("mir/mod.rs"), &published(MIR));
    write(&out.join("mir/lower/pattern_matching.rs"), &published(PATTERNS));
    write(&out.join("type_errors.rs"), &type_errors(&published(PATTERNS)));
    let stand_in = |name: &str| read(&here.join("text").join(name));
    let (lower, copied) = fill(&stand_in("lower.rs"), &published(LOWER), &stand_in("items.txt"));
    write(&out.join("mir/lower.rs"), &lower);
    let whole = |name: &str| format!("{name}: whole, {} lines\n", published(name).lines().count());
    write(&out.join("copied.txt"), &(whole(MIR) + &whole(PATTERNS) + &copied));
    for name in ["eval.rs", "monomorphization.rs", "pretty.rs"] {
        write(&out.join("mir").join(name), &stand_in(name));
    }
    for name in FRAMES {
        write(&out.join("mir/lower").join(name), &stand_in(name));
    }
    let root = format!("#[path = {:?}]\npub mod mir;\n", out.join("mir/mod.rs"));
    write(&out.join("root.rs"), &root);
}

/// The texts of the type errors of pattern_matching.rs as an array, in the order in which they
/// stand there, which is that of document 01's reasons 1 to 6.
fn type_errors(patterns: &str) -> String {
    let texts: Vec<&str> = patterns
        .split("MirLowerError::TypeError(")
        .skip(1)
        .map(|behind| behind.split('"').nth(1).expect("a type error has a text"))
        .collect();
    format!("const TYPE_ERRORS: [&str; 6] = {texts:?};\n")
}

fn read(path: &Path) -> String {
    println!("cargo::rerun-if-changed={}", path.display());
    fs::read_to_string(path).unwrap_or_else(|error| panic!("{}: {error}", path.display()))
}

fn write(path: &Path, text: &str) {
    fs::write(path, text).unwrap_or_else(|error| panic!("{}: {error}", path.display()));
}

/// The frame with the items in place of the three lines that ask for them. A line of the list of
/// items is an item's first line in the published text, up to its name's end; of methods it is
/// indented, and of the error's methods an exclamation mark stands before it. Answers also a list
/// of what was copied.
fn fill(frame: &str, published: &str, items: &str) -> (String, String) {
    let lines: Vec<&str> = published.lines().collect();
    let wanted = items.lines().filter(|line| !line.trim().is_empty() && !line.starts_with('#'));
    let mut copies = [String::new(), String::new(), String::new()];
    let mut copied = String::new();
    let mut total = 0;
    for line in wanted {
        let (kind, first) = match line.strip_prefix('!') {
            Some(method) => (2, method),
            None => (usize::from(line.starts_with(' ')), line),
        };
        let (begin, end) = item(&lines, first);
        copies[kind] += &(lines[begin..=end].join("\n") + "\n\n");
        copied += &format!("  {} to {}: {}\n", begin + 1, end + 1, first.trim());
        total += end + 1 - begin;
    }
    let lower = frame
        .replace("//@ items\n", &copies[0])
        .replace("//@ methods\n", &copies[1])
        .replace("//@ error methods\n", &copies[2]);
    (lower, format!("{LOWER}: {total} of {} lines\n{copied}", lines.len()))
}

/// The first and the last line of the item that begins with these words, with its comments and
/// attributes. In formatted text an item ends on its first line, or at the first line with its
/// indentation and a closing brace.
fn item(lines: &[&str], first: &str) -> (usize, usize) {
    let starts = |line: &str| {
        line.strip_prefix(first)
            .is_some_and(|rest| !rest.starts_with(|next: char| next.is_alphanumeric() || next == '_'))
    };
    let found: Vec<usize> = (0..lines.len()).filter(|&at| starts(lines[at])).collect();
    let [start] = found[..] else { panic!("{} items begin with {first:?}", found.len()) };
    let indent = &first[..first.len() - first.trim_start().len()];
    let closes = |line: &str| line.starts_with(&format!("{indent}}}"));
    let on_one_line = lines[start].ends_with(';') || lines[start].ends_with('}');
    let end = if on_one_line {
        start
    } else {
        (start..lines.len()).find(|&at| closes(lines[at])).expect("an item ends")
    };
    let belongs = |line: &str| {
        let line = line.trim_start();
        line.starts_with("///") || line.starts_with("#[")
    };
    let begin = (0..start).rev().take_while(|&at| belongs(lines[at])).last().unwrap_or(start);
    (begin, end)
}
