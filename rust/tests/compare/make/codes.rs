//! Sets of codes, and texts that are lists of codes or nearly so.

use crate::paper::codes::{Codes, EMPTY};
use crate::random::Random;

/// Any set: none, the keys, all, one code, runs that end near the borders of 64 codes, many.
pub fn codes(random: &Random) -> Codes {
    match random.below(16) {
        0 => random.pick(&[EMPTY, Codes([true; 256])]),
        1..=4 => Codes::of(0..=15),
        5 => Codes::of([random.u8()]),
        6..=10 => runs(random),
        11 => Codes([(); 256].map(|()| random.one_in(64))),
        12 => Codes([(); 256].map(|()| !random.one_in(64))),
        _ => Codes([(); 256].map(|()| random.bool())),
    }
}

/// A few runs of codes; a border between two of the words that hold a set is often inside or near.
fn runs(random: &Random) -> Codes {
    let mut codes = EMPTY;
    for _ in 0..1 + random.index(4) {
        let near = || random.pick(&[0, 64, 128, 192, 255]) + random.index(4);
        let end = || random.pick(&[near().saturating_sub(2).min(255), random.index(256)]);
        let (one, other) = (end(), end());
        codes.0[one.min(other)..=one.max(other)].fill(true);
    }
    codes
}

/// A set of at least one code.
pub fn some_codes(random: &Random) -> Codes {
    loop {
        let codes = codes(random);
        if codes != EMPTY {
            return codes;
        }
    }
}

/// One code of a set, if it has any.
pub fn member(random: &Random, codes: &Codes) -> Option<u8> {
    let any = random.u8();
    (0..=255).map(|i| any.wrapping_add(i)).find(|&code| codes.contains(code.into()))
}

/// So many codes of a set, the same one perhaps twice; none if it has none.
pub fn few(random: &Random, codes: &Codes, n: usize) -> Vec<u8> {
    (0..n).filter_map(|_| member(random, codes)).collect()
}

/// A number that is mostly a code of the set; now and then one next to it, or one whose lowest 8
/// bits are.
pub fn code(random: &Random, codes: &Codes) -> u32 {
    let inside = u32::from(member(random, codes).unwrap_or(5));
    match random.below(24) {
        0 => inside + 1,
        1 => inside.wrapping_sub(1),
        2 => inside + (256 << random.below(24)),
        3 => random.u32(),
        4 => random.below(256),
        _ => inside,
    }
}

fn item(random: &Random) -> String {
    let number = || random.pick(&[random.below(256), random.below(12), 63 + random.below(3)]);
    let (a, b) = (number(), number());
    if a < b && random.bool() { format!("{a}-{b}") } else { a.to_string() }
}

/// A list of codes, in any order, with repeats and overlaps.
pub fn text(random: &Random) -> String {
    let n = random.pick(&[1, 1, 2, 3, 1 + random.index(8), 1 + random.index(100)]);
    (0..n).map(|_| item(random)).collect::<Vec<_>>().join(",")
}

/// What may come into a text, with bars between.
const PARTS: &str = "|,|-|0|1|9|00|01|10|255|256|260|300|999|1000|65536|4294967296|5-5|9-3|1-2-3|\
    18446744073709551616|99999999999999999999|1,,2| |\n|\0|+1|-1|/|:";

/// A text with a few bytes changed, removed, put in or doubled, or with parts that are no list.
pub fn changed(random: &Random, text: &str) -> Vec<u8> {
    let mut text = text.as_bytes().to_vec();
    for _ in 0..random.pick(&[1, 1, 1, 2, 4]) {
        let place = random.index(text.len() + 1);
        let part = random.pick(&Vec::from_iter(PARTS.split('|')));
        let end = (place + random.pick(&[1, 1, 2, 5])).min(text.len());
        match random.below(8) {
            0 => drop(text.drain(place..end)),
            1 => drop(text.splice(place..place, text[place..end].to_vec())),
            2 => drop(text.splice(place..end, part.bytes())),
            3 => drop(text.splice(place..place, part.bytes())),
            4 => text = [part.as_bytes(), b",", &text].concat(),
            5 => text = [&text[..], b",", part.as_bytes()].concat(),
            6 if place < text.len() => text[place] ^= 1 << random.below(8),
            _ if place < text.len() => text[place] = random.pick(b"0123456789-,-,"),
            _ => text.truncate(place / 2),
        }
    }
    text
}
