//! Whoever answers requests: a program on standard input, or a function in this process.
use model::request::with_length;
use std::{
    io::{Read, Write},
    process::{Command, Stdio},
    thread,
};

pub trait Answerer {
    /// The text of each answer, the line `.` included; fewer if it stopped answering.
    fn answers(&mut self, bodies: &[Vec<u8>]) -> Vec<Vec<u8>>;
}

/// A program that reads requests on standard input and writes answers; started for each call.
pub struct Program {
    pub command: Vec<String>,
}

impl Answerer for Program {
    fn answers(&mut self, bodies: &[Vec<u8>]) -> Vec<Vec<u8>> {
        let mut child = Command::new(&self.command[0])
            .args(&self.command[1..])
            .stdin(Stdio::piped())
            .stdout(Stdio::piped())
            .spawn()
            .unwrap_or_else(|error| panic!("{}: {error}", self.command[0]));
        let stream: Vec<u8> = bodies.iter().flat_map(|body| with_length(body)).collect();
        let mut input = child.stdin.take().unwrap();
        // A program that stops early closes its end; that shows as missing answers.
        let writer = thread::spawn(move || drop(input.write_all(&stream)));
        let mut text = Vec::new();
        let _ = child.stdout.take().unwrap().read_to_end(&mut text);
        let _ = writer.join();
        let _ = child.wait();
        split_answers(&text)
    }
}

/// An answer ends with the line `.`; what comes after the last such line is an answer cut short.
pub fn split_answers(text: &[u8]) -> Vec<Vec<u8>> {
    let mut answers = Vec::new();
    let mut answer = Vec::new();
    for line in text.split_inclusive(|&byte| byte == b'\n') {
        answer.extend(line);
        if line == b".\n" {
            answers.push(std::mem::take(&mut answer));
        }
    }
    if !answer.is_empty() {
        answers.push(answer);
    }
    answers
}

/// A function from a request's body to its answer: the place for a native host (src/native.rs).
pub struct InProcess<F: FnMut(&[u8]) -> Vec<u8>>(pub F);

impl<F: FnMut(&[u8]) -> Vec<u8>> Answerer for InProcess<F> {
    fn answers(&mut self, bodies: &[Vec<u8>]) -> Vec<Vec<u8>> {
        bodies.iter().map(|body| (self.0)(body)).collect()
    }
}
