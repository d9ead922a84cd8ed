//! Makes cases, has them compiled and run, and compares.

use std::collections::BTreeMap;
use std::path::PathBuf;
use std::process::Command;
use std::{env, fs};

use image::Tables;
use image::kinds::{REST, WILD};
use published::{Answer, How};

use crate::calls::{self, Script};
use crate::generate::fitting::Maker;
use crate::generate::types::types;
use crate::meaning::form::Form;
use crate::meaning::interpret::{self, End};
use crate::meaning::source::{Source, debug};
use crate::meaning::value::{Value, Values};
use crate::meaning::way::Way;
use crate::other::Other;
use crate::records;
use crate::rng::Rng;
use crate::tree::{Kind, Node};

/// So many files, each with so many patterns, and so many more with each of the two shapes.
pub struct Settings {
    pub files: usize,
    pub patterns: usize,
    pub of_shape: usize,
    pub seed: u64,
}

/// What document 02 has the port read as the Reference does, and not as the Rust.
#[derive(Clone, Copy)]
enum Shape {
    HalfOpenRange,
    SuffixItems,
}

const SHAPES: [Shape; 2] = [Shape::HalfOpenRange, Shape::SuffixItems];

impl Shape {
    fn stands_in(self, node: &Node) -> bool {
        let own = match (self, &node.kind) {
            (Shape::HalfOpenRange, Kind::Range { end, half_open, .. }) => *half_open && end.is_some(),
            (Shape::SuffixItems, Kind::Slice { suffix, .. }) => suffix.len() > 1,
            _ => false,
        };
        own || node.children().into_iter().any(|child| self.stands_in(child))
    }

    fn told(self) -> &'static str {
        match self {
            Shape::HalfOpenRange => "on a pattern with a half-open range that has an end",
            Shape::SuffixItems => "on a pattern with two or more suffix items",
        }
    }
}

/// Values for each pattern.
const VALUES: usize = 4;
/// So many patterns in a hundred are matched behind a projection that is handed in.
const PROJECTED: usize = 40;
/// Most patterns with fewer nodes are left out.
const LEAST_NODES: usize = 4;

/// A pattern with its values, and where their runs ended.
struct Case {
    m: Tables,
    root: Node,
    place_type: u16,
    /// How the place is reached from the root, which has the whole values.
    way: Way,
    values: Vec<Value>,
    ends: Vec<String>,
}

/// Compares so many files of patterns; answers how many values were led elsewhere than rustc's.
pub fn compare(settings: &Settings, other: &Other) -> usize {
    let mut rng = Rng::new(settings.seed);
    let (mut sorts, mut of_shapes, mut projected) = (BTreeMap::new(), [0; SHAPES.len()], 0);
    for number in 0..settings.files {
        let cases = cases(&mut rng, settings);
        same_listings(&cases, other);
        same_tables(&cases, other);
        all_fit(&cases, other);
        for (case, by_rustc) in cases.iter().zip(run_by_rustc(&cases, number)) {
            for (place, rustc) in by_rustc.iter().enumerate() {
                let sort = sort(&case.ends[place], rustc);
                if sort == DIFFER {
                    report(case, place, rustc);
                }
                *sorts.entry(sort).or_default() += 1;
            }
            projected += if case.way.is_empty() { 0 } else { by_rustc.len() };
            for (count, shape) in of_shapes.iter_mut().zip(SHAPES) {
                *count += if shape.stands_in(&case.root) { by_rustc.len() } else { 0 };
            }
        }
    }
    println!("  behind a projection that is handed in: {projected}");
    tell(&sorts, of_shapes)
}

/// Prints what was counted; answers how many values differ.
fn tell(sorts: &BTreeMap<&str, usize>, of_shapes: [usize; SHAPES.len()]) -> usize {
    for (sort, count) in sorts {
        println!("  {sort}: {count}");
    }
    for (count, shape) in of_shapes.iter().zip(SHAPES) {
        println!("  {}: {count}", shape.told());
    }
    let differing = sorts.get(DIFFER).copied().unwrap_or(0);
    println!("{} values run, {differing} differ", sorts.values().sum::<usize>());
    differing
}

/// A file's cases: any, and then those of each shape.
fn cases(rng: &mut Rng, settings: &Settings) -> Vec<Case> {
    let mut tries = std::iter::repeat_with(|| case(rng)).flatten();
    let mut cases: Vec<Case> = tries.by_ref().take(settings.patterns).collect();
    for shape in SHAPES {
        let of_shape = tries.by_ref().filter(|case| shape.stands_in(&case.root));
        cases.extend(of_shape.take(settings.of_shape));
    }
    cases
}

const DIFFER: &str = "differ";

/// How a value's run compares with rustc's answer.
fn sort(end: &str, rustc: &str) -> &'static str {
    match end.starts_with("then") {
        _ if end != rustc => DIFFER,
        true => "led to then, with the same bindings",
        false => "led to else",
    }
}

fn report(case: &Case, place: usize, rustc: &str) {
    let mut source = source(case);
    let text = source.pattern(&case.root, false);
    println!("differ: {text}");
    println!(
        "  on {} of {}",
        case.way.expression("value"),
        source.typed_value(&case.values[place], case.way.root_type)
    );
    println!("  {} {}", source.declarations().replace('\n', " "), source.constants.replace('\n', " "));
    println!("  the run of the listing: {}\n  rustc: {rustc}", case.ends[place]);
}

fn source(case: &Case) -> Source<'_> {
    Source { m: &case.m, constants: String::new() }
}

/// A random case whose pattern is accepted and whose type has values.
fn case(rng: &mut Rng) -> Option<Case> {
    let total = rng.between(2, 10);
    let mut m = types(rng, total);
    let place_type = rng.row(m.types.len());
    let depth = rng.between(1, 4);
    let projected = rng.percent(PROJECTED);
    let way = if projected { Way::to(&mut m, rng, place_type) } else { Way::none(place_type) };
    let made = Maker { m: &mut m, rng: &mut *rng, slips: 0 }.pattern(place_type, depth);
    let root = Form { m: &mut m }.node(&made, place_type, false);
    if root.nodes() < LEAST_NODES && rng.percent(95) {
        return None;
    }
    root.put(&mut m);
    let mut values = Vec::new();
    for number in 0..VALUES {
        let matching = [100, 95, 85, 60][number % 4];
        let mut made = Values { m: &m, rng: &mut *rng, matching };
        let part = made.for_pattern(&root, place_type)?;
        values.push(way.whole(&mut made, part)?);
    }
    let mut case = Case { m, root, place_type, way, values, ends: Vec::new() };
    let listing = listing(&case)?;
    case.ends = case.values.iter().map(|value| told_end(&case, &listing, value)).collect();
    Some(case)
}

/// What the Rust makes of a case, with the contents of strings: on a whole local, or by a call with
/// the place handed in.
fn listing(case: &Case) -> Option<String> {
    if !case.way.is_empty() {
        return calls::of_one_call(&script(case), "").1;
    }
    let how = How { contents: true, ..How::default() };
    match published::lower(&case.m, case.place_type.into(), how).answer {
        Answer::Listing(listing) => Some(listing),
        _ => None,
    }
}

fn script(case: &Case) -> Script {
    Script::of_match(&case.m, case.way.root_type, &case.way.elements())
}

/// The listing's run on a value, told as the compiled program tells it.
fn told_end(case: &Case, listing: &str, value: &Value) -> String {
    let source = source(case);
    match interpret::run(&case.m, listing, value.clone()) {
        Ok(End::Else) => "else".to_owned(),
        Ok(End::Then(locals)) => {
            let mut text = "then".to_owned();
            for (binding, row) in case.m.bindings.iter().enumerate() {
                let bound = locals.get(&(binding + 1));
                text +=
                    &bound.map_or(" unbound".into(), |value| format!(" {}", debug(&source, value, row[0])));
            }
            text
        }
        Err(why) => format!("no end: {why}"),
    }
}

/// The other side prints the same listings, so what is run is its listing too.
fn same_listings(cases: &[Case], other: &Other) {
    let by_program = |case: &&Case| {
        case.way.is_empty() && case.m.root_type(case.m.patterns.len() - 1) == Some(case.place_type.into())
    };
    let compared: Vec<&Case> = cases.iter().filter(by_program).collect();
    let images: Vec<Vec<u8>> = compared.iter().map(|case| case.m.encode()).collect();
    for (case, answer) in compared.iter().zip(other.answers(&images)) {
        let listing = published::lower(&case.m, case.place_type.into(), How::default()).answer;
        assert_eq!(listing, Answer::Listing(answer), "the listings differ: {:?}", case.m);
    }
}

/// The other side makes the same tables of the calls with a place handed in, so what is run is its
/// listing too.
fn same_tables(cases: &[Case], other: &Other) {
    let projected: Vec<&Case> = cases.iter().filter(|case| !case.way.is_empty()).collect();
    let scripts: Vec<Script> = projected.iter().map(|case| script(case)).collect();
    let lines = other.lines(scripts.iter().flat_map(Script::entry).collect());
    assert_eq!(lines.len(), scripts.len(), "a line for each script");
    for (script, line) in scripts.iter().zip(&lines) {
        assert!(calls::of_one_call(script, line).0, "the tables differ: {line} for {:?}", script.commands);
    }
}

/// The other side says of each pattern, which rustc takes, that it fits; a rest of another form than
/// document 01 names, which the source writes as `..`, does not.
fn all_fit(cases: &[Case], other: &Other) {
    let question = |case: &Case| {
        let (pattern, bound) = (case.m.patterns.len() as u16 - 1, case.m.bindings.len() as u16);
        let words: Vec<u16> = [pattern, case.place_type].into_iter().chain(0..=bound).collect();
        records::entry_with(records::FIT, &case.m.encode(), &words)
    };
    let lines = other.lines(cases.iter().flat_map(question).collect());
    assert_eq!(lines.len(), cases.len(), "a line for each question");
    for (case, line) in cases.iter().zip(&lines) {
        let fits = if rests_fit(&case.root) { "fits" } else { "does not fit" };
        assert_eq!(line, fits, "a pattern that rustc takes: {:?}", case.m);
    }
}

/// "a rest is Rest, Wild or Bind over Rest".
fn rests_fit(node: &Node) -> bool {
    let own = match &node.kind {
        Kind::Slice { rest: Some(rest), .. } => match &rest.kind {
            Kind::Bare(kind) => [REST, WILD].contains(kind),
            Kind::Bind { sub, .. } => sub.as_ref().is_some_and(|sub| sub.kind == Kind::Bare(REST)),
            _ => false,
        },
        _ => true,
    };
    own && node.children().into_iter().all(rests_fit)
}

/// What the compiled patterns say of each case's values.
fn run_by_rustc(cases: &[Case], file: usize) -> Vec<Vec<String>> {
    let text: String = cases.iter().enumerate().map(|(number, case)| module(number, case)).collect();
    let calls: String = (0..cases.len()).map(|number| format!("    m{number}::all();\n")).collect();
    let folder = env::temp_dir().join(format!("harness-meaning-{}", std::process::id()));
    fs::create_dir_all(&folder).expect("a folder for sources");
    let path = folder.join(format!("patterns{file}.rs"));
    let program = folder.join(format!("patterns{file}"));
    fs::write(&path, format!("#![allow(warnings)]\n{text}\nfn main() {{\n{calls}}}\n")).expect("written");
    compile(&path, &program);
    let output = Command::new(&program).output().expect("the compiled patterns run");
    let printed = String::from_utf8(output.stdout).expect("UTF-8");
    fs::remove_dir_all(&folder).expect("the folder can be removed");
    let mut lines = printed.lines().map(str::to_owned);
    cases.iter().map(|case| lines.by_ref().take(case.values.len()).collect()).collect()
}

fn compile(path: &PathBuf, program: &PathBuf) {
    let output = Command::new("rustc")
        .args(["--edition", "2021", "-C", "debuginfo=0", "-C", "codegen-units=1", "-o"])
        .arg(program)
        .arg(path)
        .output()
        .expect("rustc runs");
    if !output.status.success() {
        let kept = env::temp_dir().join("harness-meaning-refused.rs");
        fs::copy(path, &kept).expect("the refused source is kept");
        let errors = String::from_utf8_lossy(&output.stderr).into_owned();
        let first: Vec<&str> = errors.lines().take(40).collect();
        panic!("rustc refuses {}:\n{}", kept.display(), first.join("\n"));
    }
}

/// A module with a case's types, constants, pattern and values.
fn module(number: usize, case: &Case) -> String {
    let mut source = source(case);
    let declarations = source.declarations();
    let type_ = source.type_name(case.way.root_type);
    let place = case.way.expression("(*value)");
    let pattern = source.pattern(&case.root, false);
    let bindings = 0..case.m.bindings.len();
    let shown: String = bindings.clone().map(|binding| format!(" {{b{binding}:?}}")).collect();
    let values = case.values.iter().map(|value| match value {
        Value::Str(_) => format!("    one({});\n", source.value(value)),
        _ => format!("    one(&{});\n", source.typed_value(value, case.way.root_type)),
    });
    let values: String = values.collect();
    format!(
        "mod m{number} {{\n{declarations}{}fn one(value: &'static {type_}) {{\n    match {place} {{\n\
         \x20       {pattern} => println!(\"then{shown}\"),\n        _ => println!(\"else\"),\n    }}\n}}\n\
         pub fn all() {{\n{values}}}\n}}\n",
        source.constants
    )
}
