//! Runs a listing on a value. Each constant of a string has its contents behind a colon.

use std::collections::{HashMap, HashSet};
use std::rc::Rc;

use image::Tables;

use crate::meaning::value::{Value, number, scalar};

/// Where a run ends: at then, with the locals, or at else.
#[derive(Debug, PartialEq)]
pub enum End {
    Then(HashMap<usize, Value>),
    Else,
}

/// What a local holds besides values: the bytes of a constant, a string's contents behind them.
#[derive(Debug, Clone)]
enum Held {
    Value(Value),
    Constant(Vec<u8>, Option<Vec<u8>>),
    /// What a switch looks at.
    Number(u128),
}

struct Run<'a> {
    m: &'a Tables,
    held: HashMap<usize, Held>,
}

/// Runs a listing with a value in local 0.
pub fn run(m: &Tables, listing: &str, value: Value) -> Result<End, String> {
    let mut lines = listing.lines();
    let head: Vec<&str> = lines.next().ok_or("no lines")?.split(' ').collect();
    let &["then", then, "else", other] = head.as_slice() else { return Err("no head".into()) };
    let mut blocks: Vec<Vec<&str>> = Vec::new();
    for line in lines.filter(|line| !line.starts_with("local ")) {
        match line.strip_prefix("bb ") {
            Some(_) => blocks.push(Vec::new()),
            None => blocks.last_mut().ok_or("no block")?.push(line),
        }
    }
    let mut run = Run { m, held: HashMap::from([(0, Held::Value(value))]) };
    let mut block = 0;
    let mut entered = HashSet::new();
    loop {
        if !entered.insert(block) {
            return Err(format!("block {block} is entered twice"));
        }
        if block.to_string() == other {
            return Ok(End::Else);
        }
        match run.block(blocks.get(block).ok_or("no such block")?)? {
            Some(next) => block = next,
            None if block.to_string() == then => return Ok(End::Then(run.values())),
            None => return Err(format!("the open block {block} is neither then nor else")),
        }
    }
}

fn parse(text: &str) -> Result<usize, String> {
    text.parse().map_err(|_| format!("{text} is no number"))
}

impl Run<'_> {
    fn values(self) -> HashMap<usize, Value> {
        let value = |(local, held)| match held {
            Held::Value(value) => Some((local, value)),
            _ => None,
        };
        self.held.into_iter().filter_map(value).collect()
    }

    /// Runs a block's lines; answers the next block, or none where it is open.
    fn block(&mut self, lines: &[&str]) -> Result<Option<usize>, String> {
        for line in lines {
            let words: Vec<&str> = line.split(' ').collect();
            match words.as_slice() {
                ["live" | "dead", _] => {}
                ["set", target, what @ ..] => {
                    let held = self.rvalue(what)?;
                    self.held.insert(parse(target)?, held);
                }
                ["goto", next] => return parse(next).map(Some),
                ["switch", local, value, then, other] => {
                    let value = u128::from_str_radix(value, 16).map_err(|error| error.to_string())?;
                    let is = self.number(parse(local)?)?;
                    return parse(if is == value { then } else { other }).map(Some);
                }
                ["open"] => return Ok(None),
                _ => return Err(format!("cannot run {line}")),
            }
        }
        Err("a block without an end".into())
    }

    fn number(&self, local: usize) -> Result<u128, String> {
        match self.held.get(&local) {
            Some(Held::Number(number)) => Ok(*number),
            other => Err(format!("local {local} holds {other:?}")),
        }
    }

    fn rvalue(&self, words: &[&str]) -> Result<Held, String> {
        match words {
            ["ref" | "mut", place] => match self.place(place)? {
                Held::Value(value) => Ok(Held::Value(Value::Ref(Rc::new(value)))),
                other => Err(format!("a reference to {other:?}")),
            },
            ["len", place] => match self.place(place)? {
                Held::Value(Value::Row(items)) => Ok(Held::Number(items.len() as u128)),
                other => Err(format!("the length of {other:?}")),
            },
            ["discr", place] => match self.place(place)? {
                Held::Value(Value::Variant(variant, _)) => Ok(Held::Number(self.discriminant(variant))),
                other => Err(format!("the discriminant of {other:?}")),
            },
            [operator @ ("eq" | "le" | "ge" | "gt"), rest @ ..] => {
                let (left, right) = rest.split_at(rest.len() - 2);
                let (left, right) = (self.operand(left)?, self.operand(right)?);
                compare(operator, &left, &right).map(|is| Held::Number(is.into()))
            }
            operand => self.operand(operand),
        }
    }

    fn discriminant(&self, variant: u16) -> u128 {
        let offset = usize::from(self.m.variants[usize::from(variant)][2]);
        u128::from_le_bytes(self.m.data[offset..offset + 16].try_into().expect("16 bytes"))
    }

    fn operand(&self, words: &[&str]) -> Result<Held, String> {
        match words {
            ["copy", place] => self.place(place),
            [constant] => {
                let (bytes, contents) = match constant.split_once(':') {
                    Some((bytes, contents)) => (bytes, Some(unhex(contents)?)),
                    None => (*constant, None),
                };
                Ok(Held::Constant(unhex(bytes)?, contents))
            }
            _ => Err(format!("no operand: {words:?}")),
        }
    }

    fn place(&self, text: &str) -> Result<Held, String> {
        let mut parts = text.split('.');
        let local = parse(parts.next().unwrap_or_default())?;
        let mut held = self.held.get(&local).ok_or(format!("nothing in local {local}"))?.clone();
        for element in parts {
            let Held::Value(value) = held else { return Err(format!("{element} of {held:?}")) };
            held = Held::Value(project(value, element)?);
        }
        Ok(held)
    }
}

fn unhex(text: &str) -> Result<Vec<u8>, String> {
    let pair = |at: usize| u8::from_str_radix(&text[at..at + 2], 16).map_err(|error| error.to_string());
    (0..text.len()).step_by(2).map(pair).collect()
}

/// One element of a place. A variant and its fields are one value, so a Downcast only looks.
fn project(value: Value, element: &str) -> Result<Value, String> {
    let fail = || Err(format!("no {element}"));
    let (word, rest) = match element {
        "deref" => ("deref", ""),
        _ => element.split_at(1),
    };
    match (word, value) {
        ("deref", Value::Ref(target)) => Ok((*target).clone()),
        ("f", Value::Row(mut items) | Value::Variant(_, mut items)) => {
            let field = parse(rest)?;
            if field < items.len() { Ok(items.swap_remove(field)) } else { fail() }
        }
        ("v", value @ Value::Variant(..)) => match &value {
            Value::Variant(variant, _) if variant.to_string() == rest => Ok(value),
            _ => fail(),
        },
        ("i", Value::Row(items)) => items.get(parse(rest)?).cloned().ok_or(format!("no {element}")),
        ("e", Value::Row(items)) => {
            items.iter().rev().nth(parse(rest)?).cloned().ok_or(format!("no {element}"))
        }
        ("s", Value::Row(items)) => {
            let (front, back) = rest.split_once('-').ok_or("no part")?;
            let (front, back) = (parse(front)?, parse(back)?);
            match items.len().checked_sub(back) {
                Some(end) if front <= end => Ok(Value::Row(items[front..end].to_vec())),
                _ => fail(),
            }
        }
        _ => fail(),
    }
}

/// Compares an operand with a value; which numbers bytes stand for, the value says.
fn compare(operator: &str, left: &Held, right: &Held) -> Result<bool, String> {
    let order = |is: std::cmp::Ordering| match operator {
        "eq" => is.is_eq(),
        "le" => is.is_le(),
        "ge" => is.is_ge(),
        _ => is.is_gt(),
    };
    Ok(match (left, right) {
        (Held::Constant(bytes, _), Held::Value(Value::Integer(other, signed))) => {
            if bytes.len() != other.len() {
                return Err("integers of different sizes".into());
            }
            order(number(bytes, *signed).cmp(&number(other, *signed)))
        }
        (Held::Constant(bytes, _), Held::Value(Value::Bool(is))) => {
            order(bytes.as_slice().cmp(&[u8::from(*is)]))
        }
        (Held::Constant(bytes, _), Held::Value(Value::Char(is))) => order(scalar(bytes).cmp(is)),
        (Held::Constant(_, Some(contents)), Held::Value(Value::Ref(text))) => match &**text {
            Value::Str(text) if operator == "eq" => contents == text.as_bytes(),
            _ => return Err("no text".into()),
        },
        (Held::Constant(bytes, _), Held::Number(length)) => {
            order(u128::try_from(number(bytes, false)).expect("not negative").cmp(length))
        }
        _ => return Err(format!("{operator} of {left:?} and {right:?}")),
    })
}
