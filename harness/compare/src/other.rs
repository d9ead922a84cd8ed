//! The other side: a program that reads records of images or of calls on standard input, and prints
//! one listing or refusal after the other.

use std::io::{self, Write};
use std::process::{Command, Stdio};
use std::thread;

use published::How;
use published::parameters::Setting;

use crate::run::Given;

#[derive(Default)]
pub struct Other {
    program: String,
    arguments: Vec<String>,
    /// How it lowers the last pattern.
    pub how: How,
    /// How it lowers parameters.
    pub setting: Setting,
}

impl Other {
    /// A command line; its parts are separated by spaces.
    pub fn set_command(&mut self, command: &str) {
        let mut parts = command.split_whitespace().map(str::to_owned);
        self.program = parts.next().unwrap_or_default();
        self.arguments = parts.collect();
    }

    /// The answers to a chunk of images or calls, in order.
    pub fn answers<T: Given>(&self, given: &[T]) -> Vec<String> {
        let list = given.iter().flat_map(Given::entry).collect();
        let printed = self.run(list).unwrap_or_else(|error| {
            panic!("{} could not be run: {error}", self.program);
        });
        let answers = apart(&printed);
        if answers.len() != given.len() {
            panic!("{} answers to {} {}", answers.len(), given.len(), T::NAME);
        }
        answers
    }

    /// The lines that are printed for a list of records.
    pub fn lines(&self, list: Vec<u8>) -> Vec<String> {
        let printed = self.run(list).unwrap_or_else(|error| {
            panic!("{} could not be run: {error}", self.program);
        });
        printed.lines().map(str::to_owned).collect()
    }

    fn run(&self, list: Vec<u8>) -> io::Result<String> {
        let mut child = Command::new(&self.program)
            .args(&self.arguments)
            .stdin(Stdio::piped())
            .stdout(Stdio::piped())
            .spawn()?;
        let mut stdin = child.stdin.take().expect("piped");
        let feeding = thread::spawn(move || stdin.write_all(&list));
        let output = child.wait_with_output()?;
        feeding.join().expect("no panic")?;
        Ok(String::from_utf8_lossy(&output.stdout).into_owned())
    }
}

/// The answers in a text; each begins with a line `then ..` or `refused ..`.
fn apart(printed: &str) -> Vec<String> {
    let mut answers: Vec<String> = Vec::new();
    for line in printed.split_inclusive('\n') {
        if line.starts_with("then ") || line.starts_with("refused ") {
            answers.push(String::new());
        }
        match answers.last_mut() {
            Some(answer) => answer.push_str(line),
            None => panic!("an answer begins with {line:?}"),
        }
    }
    answers
}
