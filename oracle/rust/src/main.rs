//! The Rust's program: a request a line in, the answer of norfair-rs's own code a line out.

mod boxes;
mod events;
mod extended;
mod floats;
mod search;
mod words;

use std::collections::HashMap;
use std::io::{BufRead, BufWriter, Write};
use std::panic::{catch_unwind, AssertUnwindSafe};
use words::Request;

/// `None`: the line does not say this request.
type Answer = fn(&mut Request) -> Option<String>;

/// A module of document 01 is a file; its requests are added here.
const ANSWERS: &[&[(&str, Answer)]] = &[floats::ANSWERS, boxes::ANSWERS, search::ANSWERS, extended::ANSWERS, events::ANSWERS];

fn main() {
    // a panic is an answer, and a difference: the Rust is asked only what it can answer
    std::panic::set_hook(Box::new(|_| ()));
    let table: HashMap<&str, Answer> = ANSWERS.iter().copied().flatten().copied().collect();
    let mut out = BufWriter::new(std::io::stdout().lock());
    for line in std::io::stdin().lock().split(b'\n') {
        let line = line.expect("standard input is read");
        let answer = match std::str::from_utf8(&line) {
            Ok("") => String::new(),
            Ok(line) => said(&table, line),
            Err(_) => "?".to_string(),
        };
        writeln!(out, "{answer}").expect("standard output is written");
    }
    out.flush().expect("standard output is written");
}

fn said(table: &HashMap<&str, Answer>, line: &str) -> String {
    let mut request = Request::new(line);
    let Some(answer) = request.name().and_then(|name| table.get(name)) else {
        return "?".to_string();
    };
    match catch_unwind(AssertUnwindSafe(|| answer(&mut request))) {
        Ok(Some(answer)) => answer,
        Ok(None) => "?".to_string(),
        Err(cause) => {
            let message = cause.downcast_ref::<String>().map(String::as_str);
            format!("panic: {}", message.or(cause.downcast_ref::<&str>().copied()).unwrap_or("")).replace('\n', " ")
        }
    }
}
