//! What a case finds: the answers of the two sides in words, each held against the words that its row states.

use std::fmt::Display;

/// What the Rust and the port answer to one call.
pub struct Said {
    pub rust: String,
    pub port: String,
}

/// A row whose case is run: how many answers were held against it, and those that are others.
#[derive(Default)]
pub struct Row {
    pub answers: usize,
    pub wrong: Vec<String>,
}

impl Row {
    /// Both sides answer what is stated.
    pub fn both(&mut self, said: Said, stated: &str) {
        self.apart(said, stated, stated);
    }

    /// The Rust answers the first, the port the second.
    pub fn apart(&mut self, said: Said, rust: &str, port: &str) {
        self.rust(said.rust, rust);
        self.port(said.port, port);
    }

    /// The Rust's answer.
    pub fn rust(&mut self, said: impl Display, stated: &str) {
        self.hold("the Rust", &said.to_string(), stated);
    }

    /// The port's answer.
    pub fn port(&mut self, said: impl Display, stated: &str) {
        self.hold("the port", &said.to_string(), stated);
    }

    /// Counts an answer, and keeps it where it is another than the stated one.
    fn hold(&mut self, side: &str, said: &str, stated: &str) {
        self.answers += 1;
        if said != stated {
            self.wrong.push(format!("stated: {stated}, but {side} answers: {said}"));
        }
    }
}
