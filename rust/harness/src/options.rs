//! Options named on a command line. Every program here reads them alike: names
//! in any order, a number or a text after each that takes one, `-h` and
//! `--help` for the usage. Anything else prints the usage and ends with 2.

use std::process::exit;

/// The words of a command line that have not been taken yet.
pub struct Words {
    usage: &'static str,
    left: Vec<String>,
}

impl Words {
    /// Those of this process.
    pub fn new(usage: &'static str) -> Words {
        let left: Vec<String> = std::env::args().skip(1).collect();
        if left.iter().any(|word| word == "-h" || word == "--help") {
            println!("{usage}");
            exit(0);
        }
        Words { usage, left }
    }

    fn refuse(&self, what: &str) -> ! {
        eprintln!("{what}\n{}", self.usage);
        exit(2);
    }

    /// Whether an option without a value is there.
    pub fn flag(&mut self, name: &str) -> bool {
        let before = self.left.len();
        self.left.retain(|word| word != name);
        self.left.len() < before
    }

    /// The texts after each `name`.
    pub fn texts(&mut self, name: &str) -> Vec<String> {
        let mut found = Vec::new();
        while let Some(at) = self.left.iter().position(|word| word == name) {
            if at + 1 == self.left.len() {
                self.refuse(&format!("{name}: a value is expected"));
            }
            found.push(self.left.remove(at + 1));
            self.left.remove(at);
        }
        found
    }

    /// The text after the last `name`, or the default.
    pub fn text(&mut self, name: &str, default: &str) -> String {
        self.texts(name).pop().unwrap_or_else(|| default.to_string())
    }

    /// The number after the last `name`, or the default.
    pub fn number(&mut self, name: &str, default: u64) -> u64 {
        match self.texts(name).pop() {
            Some(text) => {
                text.parse().unwrap_or_else(|_| self.refuse(&format!("{name} {text}: a whole number is expected")))
            }
            None => default,
        }
    }

    /// All options have been taken: a word that is left is unknown.
    pub fn done(self) {
        if let Some(word) = self.left.first() {
            self.refuse(&format!("{word}: no such option"));
        }
    }
}
