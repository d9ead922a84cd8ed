//! Compares the calls on a body, its scopes and patterns: the lines that `replay` prints for a list
//! of scripts, with what the published text makes of each call. The harness keeps the tables
//! itself, as docs/BODY.md has them.

use std::collections::BTreeMap;

use image::{ABSENT, Tables};
use published::calls::{Call, CallAnswer, Handed, Made, call};
use published::{Answer, Changed};

use crate::judge;
use crate::records::{self, Record};

const LIMITS: [usize; 5] = [512, 1024, 512, 32, 1024];
const WIDTHS: [usize; 5] = [12, 49, 1, 1, 1];
const BLOCKS: usize = 0;
const STATEMENTS: usize = 1;
const LOCALS: usize = 2;
const SCOPES: usize = 3;
const ENTRIES: usize = 4;

const SET_WORD: u16 = 6;

/// What is said of a call that is another without entries struck out.
const STRUCK_OUT: &str = ", entries struck out";

/// What a call on a pattern is handed besides the body, as op 6 sets it: the bindings' locals, and
/// words: the place's local and count, from 2 on its elements of two words, and how many of the
/// bindings' locals are handed in.
const BINDINGS: usize = 256;
const WORDS: usize = 35;
const MOST_ELEMENTS: usize = 16;
const BOUND_AT: usize = 34;
const VISITS: usize = 512;

/// A script: an image, and commands of four words.
pub struct Script {
    pub image: Vec<u8>,
    pub commands: Vec<[u16; 4]>,
}

impl Script {
    /// `pattern_match` of an image's last pattern from block 0, with one scope open and no else: local
    /// 0 has a type, the bindings' locals follow it, and the elements lead on from local 0.
    pub fn of_match(m: &Tables, root_type: u16, elements: &[[u16; 3]]) -> Script {
        let mut commands = Vec::new();
        let mut set = |table: usize, at: usize, word: usize| {
            commands.push([SET_WORD, table as u16, at as u16, word as u16]);
        };
        let bound = m.bindings.len();
        set(5, BLOCKS, 1);
        set(5, LOCALS, 1 + bound);
        set(5, SCOPES, 1);
        set(LOCALS, 0, root_type.into());
        for (binding, row) in m.bindings.iter().enumerate() {
            set(LOCALS, binding + 1, row[0].into());
            set(6, binding, binding + 1);
        }
        set(7, 1, elements.len());
        set(7, BOUND_AT, bound);
        for (number, &[kind, a, b]) in elements.iter().enumerate() {
            set(7, 2 + 2 * number, (kind + 8 * b).into());
            set(7, 3 + 2 * number, a.into());
        }
        commands.push([7, m.patterns.len() as u16 - 1, 0, ABSENT]);
        Script { image: m.encode(), commands }
    }

    /// As the other side reads it.
    pub fn entry(&self) -> Vec<u8> {
        records::entry_with(records::SCRIPT, &self.image, &self.commands.concat())
    }
}

/// The scripts of a list, and how many images before them are answered by a line.
pub fn scripts(list: &[u8]) -> (Vec<Script>, usize) {
    let records = records::read(list);
    let before = records.iter().take_while(|record| record.sort == records::IMAGE).count();
    let scripts = records.into_iter().filter(|record| record.sort == records::SCRIPT);
    let script = |Record { image, words, .. }: Record| {
        let commands = words.chunks(4).map(|command| std::array::from_fn(|at| command[at]));
        Script { image, commands: commands.collect() }
    };
    (scripts.map(script).collect(), before)
}

#[derive(Clone)]
struct Body {
    tables: [Vec<u16>; 5],
    counts: [usize; 5],
    bindings: Vec<u16>,
    words: Vec<u16>,
    visits: Vec<u16>,
    /// Of each scope whether entries were struck out of it since words of the scopes were set.
    struck: Vec<bool>,
    /// The listing of what a call on a pattern makes is asked for.
    listed: bool,
}

impl Body {
    fn new(listed: bool) -> Body {
        let tables = std::array::from_fn(|n| vec![0; WIDTHS[n] * LIMITS[n]]);
        let (bindings, words, visits) = (vec![0; BINDINGS], vec![0; WORDS], vec![0; VISITS]);
        Body { tables, counts: [0; 5], bindings, words, visits, struck: Vec::new(), listed }
    }

    fn set_word(&mut self, table: u16, at: u16, word: u16) {
        let at = usize::from(at);
        let of_scopes = |number: usize| number == SCOPES || number == ENTRIES;
        if of_scopes(table.into()) || table == 5 && of_scopes(at) {
            self.struck.clear();
        }
        let words = match table {
            5 if at < 5 => return self.counts[at] = word.into(),
            0..5 => &mut self.tables[usize::from(table)],
            6 => &mut self.bindings,
            7 => &mut self.words,
            _ => return,
        };
        if let Some(place) = words.get_mut(at) {
            *place = word;
        }
    }

    fn clear_above(&mut self) {
        for table in 0..5 {
            let start = (WIDTHS[table] * self.counts[table]).min(self.tables[table].len());
            self.tables[table][start..].fill(0);
        }
    }

    fn put(&mut self, table: usize, row: usize, words: &[u16]) {
        let start = WIDTHS[table] * row;
        let row = &mut self.tables[table][start..start + WIDTHS[table]];
        row.fill(0);
        row[..words.len()].copy_from_slice(words);
    }

    /// Counts and sums as a line has them; behind a call on a pattern also those of the visits and
    /// of the bindings' locals.
    fn told(&self, on_a_pattern: bool) -> String {
        let counts = self.counts.iter().map(|&count| count as u64);
        let more = [&self.visits, &self.bindings];
        let tables = self.tables.iter().chain(more.into_iter().filter(|_| on_a_pattern));
        counts.chain(tables.map(sum)).map(|number| format!(" {number}")).collect()
    }

    fn handed(&self) -> Handed {
        let words = |table: usize| self.tables[table][..self.counts[table]].to_vec();
        let mut edges: Vec<usize> = words(SCOPES).into_iter().map(usize::from).collect();
        edges.push(self.counts[ENTRIES]);
        let entries: Vec<usize> = words(ENTRIES).into_iter().map(usize::from).collect();
        let bound = usize::from(self.words[BOUND_AT]).min(BINDINGS);
        let elements = self.words[2..BOUND_AT].chunks(2).take(usize::from(self.words[1]).min(MOST_ELEMENTS));
        Handed {
            blocks: self.counts[BLOCKS],
            statements: self.counts[STATEMENTS],
            locals: words(LOCALS),
            scopes: edges.windows(2).map(|edge| entries[edge[0]..edge[1]].to_vec()).collect(),
            bindings: self.bindings[..bound].iter().map(|&word| number(word)).collect(),
            root: self.words[0].into(),
            elements: elements.map(|word| [word[0] % 8, word[1], word[0] / 8]).collect(),
            listed: self.listed,
        }
    }

    /// Takes over what a call made; no if that passes a limit.
    fn take(&mut self, made: &Made) -> bool {
        let entries: Vec<usize> = made.scopes.concat();
        let statements = self.counts[STATEMENTS] + made.statements.len();
        let counts = [made.blocks, statements, made.locals.len(), made.scopes.len(), entries.len()];
        let too_long = made.statements.iter().any(|row| row.len() > WIDTHS[STATEMENTS]);
        if too_long || counts.iter().zip(LIMITS).any(|(&count, limit)| count > limit) {
            return false;
        }
        for (number, row) in made.statements.iter().enumerate() {
            self.put(STATEMENTS, self.counts[STATEMENTS] + number, row);
        }
        made.terminators.iter().for_each(|(block, row)| self.put(BLOCKS, *block, row));
        made.locals.iter().enumerate().for_each(|(row, &type_)| self.put(LOCALS, row, &[type_]));
        let mut start = 0;
        for (row, scope) in made.scopes.iter().enumerate() {
            self.put(SCOPES, row, &[start as u16]);
            start += scope.len();
        }
        entries.iter().enumerate().for_each(|(row, &local)| self.put(ENTRIES, row, &[local as u16]));
        self.counts = counts;
        self.clear_above();
        self.struck.resize(made.scopes.len(), false);
        if let Some(last) = self.struck.last_mut() {
            *last |= made.struck > 0;
        }
        true
    }

    /// Entries were struck out of a scope whose locals leave.
    fn leaves_struck(&self, call: Call) -> bool {
        let from = match call {
            Call::PopAndDrop(_) => self.counts[SCOPES].saturating_sub(1),
            Call::DropUntilScope(index, _) => index,
            _ => return false,
        };
        self.struck.iter().skip(from).any(|&struck| struck)
    }
}

/// Each word times its place from 1, modulo 2^32.
fn sum(table: &Vec<u16>) -> u64 {
    let products = table.iter().zip(1u64..).map(|(&word, place)| u64::from(word) * place);
    products.sum::<u64>() % (1 << 32)
}

/// A number, or none.
fn number(word: u16) -> Option<usize> {
    (word != ABSENT).then_some(usize::from(word))
}

fn read_call([op, a, b, c]: [u16; 4]) -> Option<Call> {
    Some(match op {
        0 => Call::Temp(a, b.into()),
        1 => Call::MergeBlocks(number(a), number(b)),
        2 => Call::PushDropScope,
        3 => Call::PopAssumeDropped,
        4 => Call::PopAndDrop(a.into()),
        5 => Call::DropUntilScope(a.into(), b.into()),
        7 => Call::PatternMatch(a.into(), b.into(), number(c)),
        8 => Call::PatternMatchAssignment(a.into(), b.into()),
        9 => Call::MatchSelfParam(a.into(), b.into(), c.into()),
        _ => return None,
    })
}

/// The lines that are expected for a call, one of them, and how it is counted.
struct Line {
    lines: Vec<String>,
    sort: String,
    /// Without entries struck out it is another.
    struck: bool,
    listing: Option<String>,
}

/// What is expected for a call. Whether a body may be handed in at all, number 2, only document 01
/// says, and there the other side's answer is taken over; the tables must then be as they were.
fn line(tables: Option<&Tables>, body: &mut Body, command: Call, answer: &str) -> Line {
    let told = |number: u16, body: &Body| Line {
        lines: vec![format!("refused {number} 65535 0{}", body.told(command.on_a_pattern()))],
        sort: format!(
            "refused {number} (document 01 alone){}",
            if command.on_a_pattern() { " (on a pattern)" } else { "" }
        ),
        struck: false,
        listing: None,
    };
    let Some(tables) = tables else { return told(1, body) };
    if answer.starts_with("refused 2 ") {
        return told(2, body);
    }
    body.clear_above();
    let handed = body.handed();
    let made = call(tables, &handed, command);
    let mut after = body.clone();
    let within = after.take(&made);
    let no_scope = handed.scopes.is_empty() && matches!(command, Call::PopAssumeDropped);
    if command.on_a_pattern() {
        return match_line(tables, body, command, made, after);
    }
    let (answer, sort) = match made.answer {
        CallAnswer::Unsized => ("refused 8 65535 0".to_owned(), "refused 8"),
        _ if !within => ("refused 11 65535 0".to_owned(), "refused 11 (the Rust goes on)"),
        CallAnswer::Panicked => ("refused 14 65535 0".to_owned(), "refused 14 (the Rust panics)"),
        _ if no_scope => ("refused 14 65535 0".to_owned(), "refused 14 (the Rust goes on)"),
        CallAnswer::Local(local) => (format!("local {local}"), "accepted"),
        CallAnswer::Block(Some(block)) => (format!("block {block}"), "accepted"),
        CallAnswer::Block(None) => ("block -".to_owned(), "accepted"),
        CallAnswer::Done => ("now".to_owned(), "accepted"),
    };
    let struck = sort == "accepted" && body.leaves_struck(command);
    if sort == "accepted" {
        *body = after;
    }
    let told = if struck { format!("{sort}{STRUCK_OUT}") } else { sort.to_owned() };
    Line { lines: vec![answer + &body.told(false)], sort: told, struck, listing: None }
}

/// The same for a call on a pattern: a refusal of the walk leaves the tables, and no visits.
fn match_line(tables: &Tables, body: &mut Body, command: Call, made: Made, mut after: Body) -> Line {
    let outcome = made.outcome.expect("a call on a pattern has one");
    let visits: Vec<u16> = outcome.trace.visits.iter().map(|&count| count as u16).collect();
    let expected = match outcome.answer {
        Answer::Stopped([14, ..], _) if outcome.trace.passed.is_none() => {
            judge::near(tables, 14, outcome.trace.entered, "refused 14 (the Rust panics)")
        }
        _ => judge::of_outcome(tables, outcome),
    };
    if command.visits() {
        body.visits.fill(0);
        after.visits.fill(0);
        after.visits[..visits.len()].copy_from_slice(&visits);
    }
    let struck = expected.sort == "accepted" && made.struck > 0;
    if expected.sort == "accepted" {
        *body = after;
    }
    let line = |answer: String| answer.trim_end().to_owned() + &body.told(true);
    let changed = match expected.changed {
        Changed { parted: true, .. } => " with a local for each discriminant test",
        Changed { replaced: true, .. } => " by the replacements",
        _ => "",
    };
    Line {
        lines: expected.answers().into_iter().map(line).collect(),
        sort: format!("{}{changed}{} (on a pattern)", expected.sort, if struck { STRUCK_OUT } else { "" }),
        struck,
        listing: made.listing,
    }
}

/// Whether the line that a script's only call is answered with is as expected, and the listing of
/// what the Rust made.
pub fn of_one_call(script: &Script, answer: &str) -> (bool, Option<String>) {
    let tables = image::read(&script.image);
    let mut body = Body::new(true);
    for &[_, a, b, c] in script.commands.iter().filter(|command| command[0] == SET_WORD) {
        body.set_word(a, b, c);
    }
    let called = script.commands.iter().copied().find_map(read_call).expect("a call");
    let expected = line(tables.as_ref(), &mut body, called, answer);
    (expected.lines.iter().any(|line| line == answer), expected.listing)
}

/// Compares a list of scripts with the lines that the other side printed for it; answers how many
/// calls differed.
pub fn compare((scripts, before): &(Vec<Script>, usize), printed: &str) -> usize {
    let mut lines = printed.lines().skip(*before);
    let mut tally: BTreeMap<String, usize> = BTreeMap::new();
    let (mut differing, mut drops, mut entries) = (0, 0, 0);
    for (number, script) in scripts.iter().enumerate() {
        let tables = image::read(&script.image);
        let mut body = Body::new(false);
        for (place, &command) in script.commands.iter().enumerate() {
            let [op, a, b, c] = command;
            if op == SET_WORD {
                body.set_word(a, b, c);
            }
            let Some(called) = read_call(command) else { continue };
            let answer = lines.next().unwrap_or("nothing");
            let expected = line(tables.as_ref(), &mut body, called, answer);
            *tally.entry(expected.sort).or_default() += 1;
            drops += usize::from(expected.struck && !called.on_a_pattern());
            entries += usize::from(expected.struck && called.on_a_pattern());
            if !expected.lines.iter().any(|line| line == answer) {
                differing += 1;
                println!("script {} differs at command {place}, {called:?}:", number + 1);
                println!("  the Rust: {}\n  the other side: {answer}", expected.lines.join(" or "));
                let calls = script.commands[place + 1..].iter().filter(|&&next| read_call(next).is_some());
                lines.by_ref().take(calls.count()).for_each(drop);
                break;
            }
        }
    }
    tally.iter().for_each(|(sort, count)| println!("  {sort}: {count}"));
    let total: usize = tally.values().sum();
    println!(
        "{total} calls compared, {differing} differ; with entries struck out {entries} have others, and {drops} \
         drop others"
    );
    differing
}
