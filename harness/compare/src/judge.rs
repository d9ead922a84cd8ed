//! What an image must be answered with, by the reader for numbers 1 and 2 and by the published
//! text for everything else; and whether an answer is that.

use image::{ABSENT, Tables};
use published::{Answer, Changed, How, Outcome};

/// What is expected of the other side, and by what it is counted.
pub struct Expected {
    pub sort: String,
    /// What document 02 has changed in a listing of the Rust's.
    pub changed: Changed,
    rule: Rule,
}

enum Rule {
    /// This text, byte for byte.
    Text(String),
    /// This number at one of these patterns.
    Near(u16, Vec<u16>),
    /// Nothing the other side could say: the published text stopped where document 01 has no number.
    Unknown(String),
}

/// What an image must be answered with, its last pattern lowered this way.
pub fn expected(image: &[u8], how: How) -> Expected {
    let Some(tables) = image::read(image) else {
        return text("refused 1 (document 01 alone)".into(), "refused 1 65535 0\n".into());
    };
    let root = tables.patterns.len() - 1;
    let Some(place_type) = tables.root_type(root) else {
        return text("refused 2 (document 01 alone)".into(), "refused 2 65535 0\n".into());
    };
    of_outcome(&tables, published::lower(&tables, place_type, how))
}

pub fn text(sort: String, text: String) -> Expected {
    Expected { sort, changed: Changed::default(), rule: Rule::Text(text) }
}

/// What must be answered where the published text came to an outcome.
pub fn of_outcome(tables: &Tables, outcome: Outcome) -> Expected {
    if let Some(entered) = outcome.trace.passed {
        return near(tables, 11, entered, "refused 11 (the Rust goes on)");
    }
    let line = |[number, pattern, reason]: [u16; 3]| format!("refused {number} {pattern} {reason}\n");
    match outcome.answer {
        Answer::Listing(listing) => Expected { changed: outcome.changed, ..text("accepted".into(), listing) },
        Answer::Refused(refusal @ [4, _, reason]) => text(format!("refused 4 for {reason}"), line(refusal)),
        Answer::Refused(refusal) => text(format!("refused {}", refusal[0]), line(refusal)),
        Answer::Stopped([0, ..], said) => {
            Expected { sort: "unexplained".into(), changed: Changed::default(), rule: Rule::Unknown(said) }
        }
        Answer::Stopped(refusal, _) => {
            text(format!("refused {} (the Rust panics or goes on)", refusal[0]), line(refusal))
        }
    }
}

/// A number at the pattern that was entered last or at one above it.
pub fn near(tables: &Tables, number: u16, entered: Option<usize>, sort: &str) -> Expected {
    let patterns = entered.map_or(vec![ABSENT], |entered| with_those_above(tables, entered));
    Expected { sort: sort.to_owned(), changed: Changed::default(), rule: Rule::Near(number, patterns) }
}

/// A pattern and all those above it.
fn with_those_above(tables: &Tables, pattern: usize) -> Vec<u16> {
    let mut found = vec![pattern as u16];
    for (number, row) in tables.patterns.iter().enumerate().skip(pattern + 1) {
        if tables.subpatterns(row).contains(found.last().expect("not empty")) {
            found.push(number as u16);
        }
    }
    found
}

impl Expected {
    pub fn agrees(&self, answer: &str) -> bool {
        self.answers().iter().any(|text| text == answer)
    }

    /// The answers that agree.
    pub fn answers(&self) -> Vec<String> {
        match &self.rule {
            Rule::Text(text) => vec![text.clone()],
            Rule::Near(number, patterns) => {
                patterns.iter().map(|pattern| format!("refused {number} {pattern} 0\n")).collect()
            }
            Rule::Unknown(_) => Vec::new(),
        }
    }

    /// What is expected, to be printed.
    pub fn told(&self) -> String {
        match &self.rule {
            Rule::Text(text) => text.clone(),
            Rule::Near(number, patterns) => format!("refused {number} at one of {patterns:?}\n"),
            Rule::Unknown(said) => format!("stopped: {said}\n"),
        }
    }
}
