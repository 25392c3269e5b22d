//! The words of the protocol: reading a request's and writing an answer's.

use std::fmt::Write;
use std::str::Split;

const LONGEST_RUN: usize = 8192;
const MOST_IDS: usize = 128;
const QUIET: u64 = 0x0008_0000_0000_0000;

pub struct Request<'a> {
    words: Split<'a, char>,
    refused: Vec<u32>,
}

impl<'a> Request<'a> {
    pub fn new(line: &'a str) -> Self {
        Self { words: line.split(' '), refused: Vec::new() }
    }

    /// The numbers that stand before a request with frames, `refused N NUMBER ..`: such a frame is not handed over.
    pub fn name(&mut self) -> Option<&'a str> {
        let name = self.word()?;
        if name != "refused" {
            return Some(name);
        }
        let frames = self.count()?;
        self.refused = (0..frames).map(|_| self.word()?.parse().ok()).collect::<Option<_>>()?;
        self.word()
    }

    /// The second program's number for a frame.
    pub fn refused(&self, frame: usize) -> u32 {
        self.refused.get(frame).copied().unwrap_or(0)
    }

    pub fn word(&mut self) -> Option<&'a str> {
        self.words.next()
    }

    /// A signalling NaN is made quiet: on aarch64 `f64::min` would answer it with NaN.
    pub fn float(&mut self) -> Option<f64> {
        let word = self.word()?;
        let digits = word.bytes().all(|b| matches!(b, b'0'..=b'9' | b'a'..=b'f'));
        if word.len() != 16 || !digits {
            return None;
        }
        let bits = u64::from_str_radix(word, 16).ok()?;
        let nan = f64::from_bits(bits).is_nan();
        Some(f64::from_bits(if nan { bits | QUIET } else { bits }))
    }

    pub fn floats(&mut self, count: usize) -> Option<Vec<f64>> {
        (0..count).map(|_| self.float()).collect()
    }

    pub fn count(&mut self) -> Option<usize> {
        let word = self.word()?;
        let digits = word.bytes().all(|b| b.is_ascii_digit());
        if digits { word.parse().ok() } else { None }
    }

    pub fn whole(&mut self) -> Option<i32> {
        let word = self.word()?;
        let digits = word.strip_prefix('-').unwrap_or(word);
        let decimal = !digits.is_empty() && digits.bytes().all(|b| b.is_ascii_digit());
        if decimal { word.parse().ok() } else { None }
    }

    pub fn flag(&mut self) -> Option<bool> {
        match self.count()? {
            0 => Some(false),
            1 => Some(true),
            _ => None,
        }
    }

    /// `1 ID`, or `0` for none.
    pub fn partner(&mut self) -> Option<Option<i32>> {
        Some(if self.flag()? { Some(self.whole()?) } else { None })
    }

    pub fn ids(&mut self) -> Option<Vec<i32>> {
        let count = self.count().filter(|&n| n <= MOST_IDS)?;
        (0..count).map(|_| self.whole()).collect()
    }

    pub fn run(&mut self) -> Option<Vec<f64>> {
        let count = self.count().filter(|&n| n <= LONGEST_RUN)?;
        self.floats(count)
    }

    pub fn end(&mut self) -> Option<()> {
        self.word().is_none().then_some(())
    }
}

/// A computed float as it is written: one NaN, and a zero without its sign.
pub fn computed(x: f64) -> f64 {
    if x == 0.0 { 0.0 } else { x }
}

pub fn float_word(x: f64) -> String {
    let bits = if x.is_nan() { 0x7ff8_0000_0000_0000 } else { x.to_bits() };
    format!("{bits:016x}")
}

pub fn run_words(floats: &[f64]) -> String {
    let mut text = floats.len().to_string();
    for &x in floats {
        write!(text, " {}", float_word(x)).expect("a string takes every word");
    }
    text
}

pub fn whole_run_words(numbers: &[usize]) -> String {
    let mut text = numbers.len().to_string();
    for n in numbers {
        write!(text, " {n}").expect("a string takes every word");
    }
    text
}
