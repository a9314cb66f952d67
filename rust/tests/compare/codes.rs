//! Sets of codes: their text, read and written, and what is told of them.

use crate::both::library_codes;
use crate::make::codes::{changed, codes, text};
use crate::paper::codes::{self as paper, Codes, EMPTY};
use crate::random::Random;
use crate::tally::Tally;
use std::collections::BTreeSet;
use twimbor::sys::{self, CodesResult, LowestResult, TextResult};
use twimbor::{CODES_BYTES, Refusal};

pub const INPUTS: usize = TEXTS + 4 * SETS;
const TEXTS: usize = 300_000;
const SETS: usize = 30_000;

fn read(text: &[u8]) -> Result<Codes, u8> {
    let answer = paper::read(text);
    let codes = library_codes(&answer.unwrap_or(EMPTY));
    let result = CodesResult { codes, refusal: answer.err().unwrap_or(0) };
    let shown = text.escape_ascii();
    assert_eq!(sys::read_codes(text), result, "{shown}");
    let expected = answer.map(|_| codes);
    assert_eq!(twimbor::Codes::read(text).map_err(Refusal::number), expected, "{shown}");
    if let Ok(text) = std::str::from_utf8(text) {
        assert_eq!(text.parse::<twimbor::Codes>().map_err(Refusal::number), expected, "{shown}");
    }
    answer
}

/// Lends the first so many bytes of a larger output, so that a byte written too far is seen.
fn write(random: &Random, codes: &Codes, bytes: usize) -> Result<usize, u8> {
    let before = random.bytes(bytes + 8);
    let mut expected = before.clone();
    let answer = paper::write(codes, &mut expected[..bytes]);
    let result = TextResult { bytes: answer.unwrap_or(0), refusal: answer.err().unwrap_or(0) };
    let (set, mut output) = (library_codes(codes), before.clone());
    let said = sys::write_codes(set, &mut output[..bytes]);
    assert_eq!((said, &output), (result, &expected), "{bytes} for {codes:?}");
    let mut output = before;
    let said = set.write_to(&mut output[..bytes]).map_err(Refusal::number);
    assert_eq!((said, output), (answer, expected), "{bytes} for {codes:?}");
    answer
}

/// The text is written into as many bytes as it has, and is read back.
fn there_and_back(codes: &Codes) {
    let (set, text) = (library_codes(codes), paper::text(codes));
    let mut output = vec![0; text.len()];
    let answer = if *codes == EMPTY { Err(20) } else { Ok(text.len()) };
    assert_eq!(set.write_to(&mut output).map_err(Refusal::number), answer, "{codes:?}");
    assert_eq!(output, text.as_bytes(), "{codes:?}");
    assert_eq!(read(&output), answer.map(|_| *codes));
}

/// The number of codes, the lowest, and each of 0 to 255; then what the crate adds.
fn told(codes: &Codes) {
    let (set, members) = (library_codes(codes), Vec::from_iter(codes.members()));
    assert_eq!(sys::codes_count(set) as usize, members.len(), "{codes:?}");
    let lowest = codes.lowest();
    let result =
        LowestResult { code: lowest.unwrap_or(0).into(), refusal: lowest.err().unwrap_or(0) };
    assert_eq!(sys::codes_lowest(set), result, "{codes:?}");
    for code in 0..=255 {
        assert_eq!(sys::codes_contain(set, code), codes.contains(code), "{code} in {codes:?}");
    }
    assert_eq!((set.len(), set.is_empty()), (members.len(), members.is_empty()));
    assert_eq!(set.lowest().map_err(Refusal::number), lowest);
    assert!(set.iter().eq(codes.members()) && set.iter().rev().eq(codes.members().rev()));
    assert_eq!((set.iter().len(), members.into_iter().collect()), (codes.members().count(), set));
    assert_eq!(set.to_string(), paper::text(codes));
}

/// Lists of codes, and such with a few bytes changed.
#[test]
fn texts_are_read_as_on_paper() {
    let random = &Random::new(25);
    let (mut tally, mut near) = (Tally::default(), Tally::default());
    for i in 0..TEXTS {
        let text = text(random);
        if i % 3 == 0 {
            tally.add(read(text.as_bytes()).map_err(|_| 255));
        } else {
            near.add(read(&changed(random, &text)));
        }
    }
    tally.finish("read lists of codes", &[]);
    near.finish("read changed lists of codes", &[20]);
}

/// Every text of up to four of these eight bytes, and of up to six of these four; every number, and
/// every two with a dash.
#[test]
fn short_texts_are_read_as_on_paper() {
    let mut tally = Tally::default();
    for (bytes, most) in [(&b"0125,- 6"[..], 4), (b"02-,", 6)] {
        let mut texts = vec![Vec::new()];
        for _ in 0..=most {
            texts.iter().for_each(|text| tally.add(read(text)));
            let longer = |&byte| texts.iter().map(move |text| [&text[..], &[byte]].concat());
            texts = bytes.iter().flat_map(longer).collect();
        }
    }
    for a in 0..=1_000 {
        tally.add(read(format!("{a}").as_bytes()));
        tally.add(read(format!("0{a}").as_bytes()));
    }
    for (a, b) in (0..=258).flat_map(|a| (0..=258).map(move |b| (a, b))) {
        let answer = read(format!("{a}-{b}").as_bytes());
        assert_eq!(answer.is_ok(), a < b && b <= 255);
        tally.add(answer);
    }
    tally.finish("read short texts", &[20]);
}

/// Numbers so long that one counted in 8, 16, 32 or 64 bits would come round to a code, and texts
/// of many items.
#[test]
fn long_texts_are_read_as_on_paper() {
    for code in [0_u128, 5, 255] {
        for bits in [8, 16, 32, 64, 96] {
            let number = code + (1 << bits);
            let texts = [format!("{number}"), format!("0-{number}"), format!("{number}-255")];
            assert!(texts.iter().all(|text| read(text.as_bytes()) == Err(20)));
        }
        for zeros in [1, 19, 20, 300] {
            assert_eq!(read(format!("{code:0>0$}", zeros + 3).as_bytes()), Err(20));
        }
    }
    assert_eq!(read("9".repeat(100_000).as_bytes()), Err(20));
    let many = ["250-255,0-1,7"; 10_000].join(",");
    assert_eq!(read(many.as_bytes()), Ok(Codes::of([0, 1, 7, 250, 251, 252, 253, 254, 255])));
    for wrong in ["x", ",", "-", ",256", " ", "\n"] {
        assert_eq!(read(format!("{many}{wrong}").as_bytes()), Err(20));
    }
}

/// Room of exactly the text's bytes, one less, none, and more.
fn rooms(random: &Random, codes: &Codes, tally: &mut Tally) {
    let bytes = paper::text(codes).len();
    for room in [bytes, bytes.saturating_sub(1), 0, bytes + 1 + random.index(20)] {
        let answer = write(random, codes, room);
        let refused = if *codes == EMPTY { Err(20) } else { Err(14) };
        assert_eq!(answer, if room < bytes || bytes == 0 { refused } else { Ok(bytes) });
        tally.add(answer);
    }
}

#[test]
fn sets_are_written_as_on_paper() {
    let random = &Random::new(26);
    let mut tally = Tally::default();
    for _ in 0..SETS {
        let codes = codes(random);
        rooms(random, &codes, &mut tally);
        there_and_back(&codes);
        told(&codes);
        let code = random.u8();
        let (mut set, mut more) = (library_codes(&codes), codes);
        more.0[usize::from(code)] = true;
        assert_eq!(set.insert(code), more != codes);
        assert_eq!(set, library_codes(&more));
        let mut fewer = more;
        fewer.0[usize::from(code)] = false;
        assert!(set.remove(code) && !set.remove(code));
        assert_eq!(set, library_codes(&fewer));
    }
    tally.finish("write sets of codes", &[14, 20]);
}

/// No code, every code, every pair of codes, and every run.
#[test]
fn every_pair_and_every_run_is_written_as_on_paper() {
    let mut sets = BTreeSet::from([[false; 256]]);
    for (a, b) in (0..=255).flat_map(|a| (a..=255).map(move |b| (a, b))) {
        sets.insert(Codes::of([a, b]).0);
        sets.insert(Codes::of(a..=b).0);
    }
    println!("pairs and runs of codes: {}", sets.len());
    for codes in sets.into_iter().map(Codes) {
        there_and_back(&codes);
        told(&codes);
        let all_others = Codes(codes.0.map(|is_in| !is_in));
        there_and_back(&all_others);
    }
}

/// Each of the words that hold a set is empty, full, has its lowest bit or its highest, all but
/// one of these, both, or all but both: so runs end at, and cross, one, two and three borders.
#[test]
fn words_are_joined_as_on_paper() {
    let random = &Random::new(27);
    let ends = [0, 1, 1 << 63, 1 << 63 | 1];
    let shapes: Vec<u64> = ends.iter().flat_map(|&word| [word, !word]).collect();
    let mut tally = Tally::default();
    for number in 0..8_usize.pow(4) {
        let words = [0, 1, 2, 3].map(|i| shapes[number / 8_usize.pow(i) % 8]);
        let bits = words.iter().flat_map(|word| (0..64).map(move |bit| word >> bit & 1 == 1));
        let codes = Codes(Vec::from_iter(bits).try_into().unwrap());
        assert_eq!(<[u64; 4]>::from(library_codes(&codes)), words);
        rooms(random, &codes, &mut tally);
        there_and_back(&codes);
        told(&codes);
    }
    tally.finish("write sets of whole words", &[14, 20]);
}

/// Nothing above 255 is in a set, whatever its lowest bits say.
#[test]
fn no_set_has_codes_above_255() {
    let all = library_codes(&Codes([true; 256]));
    for code in (0..8).flat_map(|low| (8..32).map(move |bit| low * 36 + (1 << bit))) {
        assert!(!sys::codes_contain(all, code) && !all.contains(code));
    }
    assert!(!all.contains(-1) && !all.contains(1_u64 << 32) && all.contains(255_u8));
}

/// A set is runs of codes with at least one left out between two, and its text has an item for each.
/// The most bytes that the runs from some code on can have are found from the last code down.
#[test]
fn the_longest_text_has_609_bytes() {
    let random = &Random::new(28);
    let digits = |code: usize| code.to_string().len();
    // For each code, the most bytes of the items from there on, each with a comma before it, and
    // where the first of them ends if it starts there.
    let mut best = vec![(0, 256); 259];
    for first in (0..256).rev() {
        best[first] = (best[first + 1].0, 256);
        for last in first..256 {
            let range = if last > first { 1 + digits(last) } else { 0 };
            let bytes = 1 + digits(first) + range + best[last + 2].0;
            if bytes > best[first].0 {
                best[first] = (bytes, last);
            }
        }
    }
    let (mut codes, mut code) = (EMPTY, 0);
    while code < 256 {
        let last = best[code].1;
        if last < 256 {
            codes.0[code..=last].fill(true);
        }
        code = if last < 256 { last + 2 } else { code + 1 };
    }
    let text = paper::text(&codes);
    println!("the longest text: {text}");
    assert_eq!((text.len(), best[0].0 - 1), (CODES_BYTES, CODES_BYTES));
    rooms(random, &codes, &mut Tally::default());
    there_and_back(&codes);
}
