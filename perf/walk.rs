//! Walks a capture of sample words from its first word to its last, as often as it is told, and prints what it found.
//! A plain program, written from documents 01 and 02 alone, for timing: perf/walk.py builds and runs it beside perf/walk.rt.txt.
//!
//! Standard input, every number low byte first: one byte for the edition (1 or 2), three bytes for the number of turns,
//! then the capture's words, two bytes each. Standard output: four 64-bit numbers, low byte first: the samples, the gaps,
//! the skipped words and a sum over all answers.

use std::io::{self, Read, Write};

/// A word: data in bits 0 to 7, parity in bit 8, the end mark in bit 9.
const DATA: u16 = 0xFF;
const END_MARK: u16 = 1 << 9;
const LARGEST_WORD: u16 = 1023;
const LARGEST_CAPTURE: usize = 65_536;

/// In the header, which is a sample's first word.
const RESOURCE: u16 = 1 << 3;
const HEADER_ZEROS: u16 = 0b1110_0000;

const COUNTERS: usize = 16;

/// The parity bit of each byte, where it stands in a word: bits 0 to 8 together have an odd number of ones.
static PARITY: [u16; 256] = parity_bits();

const fn parity_bits() -> [u16; 256] {
    let mut bits = [0; 256];
    let mut byte = 0;
    while byte < 256 {
        bits[byte] = if byte.count_ones() % 2 == 0 { 1 << 8 } else { 0 };
        byte += 1;
    }
    bits
}

#[derive(Clone, Copy, Debug)]
enum Edition {
    First,
    Second,
}

impl Edition {
    fn stamp_words(self) -> usize {
        match self {
            Edition::First => 5,
            Edition::Second => 7,
        }
    }

    fn user_words(self) -> usize {
        match self {
            Edition::First => 6,
            Edition::Second => 8,
        }
    }

    /// The length of the sample that starts with this word.
    fn sample_words(self, header: u16) -> usize {
        let trace = 1 + 4 + self.stamp_words() + self.user_words();
        if header & RESOURCE == 0 { trace } else { trace + 4 * COUNTERS }
    }
}

#[derive(Debug, Default, PartialEq)]
struct Sample {
    user: u64,
    stamp: u64,
    source: u32,
    header: u32,
    counters: [u32; COUNTERS],
}

/// What is at a place of the capture: a sample (number 0), a gap (21 to 24) or the end of the walk (20).
#[derive(Debug, PartialEq)]
struct Step {
    sample: Sample,
    next: usize,
    decided: usize,
    skipped: usize,
    number: u32,
}

/// The sample or gap at a place, which may lie past the end.
fn at(edition: Edition, capture: &[u16], place: usize) -> Step {
    let rest = capture.get(place..).unwrap_or(&[]);
    let length = rest.first().map_or(0, |&header| edition.sample_words(header));
    let words = &rest[..length.min(rest.len())];

    if let Some((bad, number)) = first_bad(words, length) {
        let boundary = rest[bad..].iter().position(|&word| word <= LARGEST_WORD && word & END_MARK != 0);
        let skipped = boundary.map_or(rest.len(), |more| bad + more + 1);
        return Step { sample: Sample::default(), next: place + skipped, decided: place + bad, skipped, number };
    }
    let end = place + words.len();
    if words.is_empty() || words.len() < length {
        return Step { sample: Sample::default(), next: place, decided: end, skipped: 0, number: 20 };
    }
    Step { sample: fields(edition, words), next: end, decided: end, skipped: 0, number: 0 }
}

/// The first bad one of a sample's words and its number; of the sample's whole length there may be fewer words.
fn first_bad(words: &[u16], length: usize) -> Option<(usize, u32)> {
    for (i, &word) in words.iter().enumerate() {
        let is_header = i == 0;
        let is_last = i + 1 == length;
        if word != good_word(word & DATA, is_last) || is_header && word & HEADER_ZEROS != 0 {
            return Some((i, fault(word, is_header)));
        }
    }
    None
}

/// The word for a byte of data.
fn good_word(data: u16, is_last: bool) -> u16 {
    data | PARITY[data as usize] | if is_last { END_MARK } else { 0 }
}

/// The number of a bad word: where nothing else is wrong with it, its end mark is.
fn fault(word: u16, is_header: bool) -> u32 {
    if word > LARGEST_WORD {
        21
    } else if word & !END_MARK != good_word(word & DATA, false) {
        22
    } else if is_header && word & HEADER_ZEROS != 0 {
        23
    } else {
        24
    }
}

/// The fields of a whole and good sample.
fn fields(edition: Edition, words: &[u16]) -> Sample {
    let (header, rest) = words.split_at(1);
    let (source, rest) = rest.split_at(4);
    let (stamp, rest) = rest.split_at(edition.stamp_words());
    let (user, rest) = rest.split_at(edition.user_words());
    let mut counters = [0; COUNTERS];
    for (counter, four) in counters.iter_mut().zip(rest.chunks_exact(4)) {
        *counter = low_first(four) as u32;
    }
    Sample {
        user: low_first(user),
        stamp: low_first(stamp),
        source: low_first(source) as u32,
        header: low_first(header) as u32,
        counters,
    }
}

/// The number whose bytes are the data of these words, the lowest first.
fn low_first(words: &[u16]) -> u64 {
    words.iter().rev().fold(0, |number, &word| number << 8 | u64::from(word & DATA))
}

/// What a walk has met so far.
#[derive(Default)]
struct Tally {
    samples: u64,
    gaps: u64,
    skipped: u64,
    sum: u64,
}

impl Tally {
    /// The whole capture once: a function of its own, as the one in perf/walk.rt.txt is.
    #[inline(never)]
    fn walk(&mut self, edition: Edition, capture: &[u16]) {
        let mut place = 0;
        loop {
            let step = at(edition, capture, place);
            self.sum = (31 * self.sum + weight(&step) + u64::from(step.number)) % (1 << 32);
            match step.number {
                0 => self.samples += 1,
                20 => return,
                _ => self.gaps += 1,
            }
            self.skipped += step.skipped as u64;
            place = step.next;
        }
    }
}

/// A number that all fields of an answer but its own number go into.
fn weight(step: &Step) -> u64 {
    let folded = |number: u64| number % (1 << 32) + (number >> 32);
    let sample = &step.sample;
    let counters: u64 = (1..).zip(&sample.counters).map(|(times, &counter)| times * u64::from(counter)).sum();
    folded(sample.user)
        + 3 * folded(sample.stamp)
        + 5 * u64::from(sample.source)
        + 7 * u64::from(sample.header)
        + step.next as u64
        + 3 * step.decided as u64
        + 5 * step.skipped as u64
        + counters
}

fn main() -> io::Result<()> {
    let mut input = Vec::new();
    io::stdin().read_to_end(&mut input)?;
    let (edition, turns, words) = match input.as_slice() {
        [1, a, b, c, words @ ..] => (Edition::First, [*a, *b, *c, 0], words),
        [2, a, b, c, words @ ..] => (Edition::Second, [*a, *b, *c, 0], words),
        _ => return Err(io::Error::other("no edition or no turns")),
    };
    if words.len() % 2 != 0 || words.len() / 2 > LARGEST_CAPTURE {
        return Err(io::Error::other("half a word or too many words"));
    }
    let capture: Vec<u16> = words.chunks_exact(2).map(|two| u16::from_le_bytes([two[0], two[1]])).collect();

    let mut tally = Tally::default();
    for _ in 0..u32::from_le_bytes(turns) {
        tally.walk(edition, &capture);
    }
    let mut output = io::stdout().lock();
    for number in [tally.samples, tally.gaps, tally.skipped, tally.sum] {
        output.write_all(&number.to_le_bytes())?;
    }
    output.flush()
}
