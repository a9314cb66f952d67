//! A whole capture in one call: cut anywhere, and in pieces.

use crate::both::Both;
use crate::make::captures::{capture, framed, frames};
use crate::make::tables::{broken_table, table};
use crate::paper::capture::{self as paper, Answers};
use crate::paper::codes::Codes;
use crate::paper::packet;
use crate::paper::table::{self, Table};
use crate::random::Random;
use crate::tally::Tally;
use twimbor::sys::{self, Captured};
use twimbor::{Refusal, Report};

const CAPTURES: usize = 40_000;

/// Receives with the library and on paper; the tables go on as each leaves its own.
fn receive_capture(both: &mut Both, capture: &[u8]) -> Result<Answers, u8> {
    let mut lent = both.library.clone();
    let answer = paper::receive_capture(&mut both.paper, capture);
    let answers = answer.clone().unwrap_or_default();
    let (used, taken, refused) = (answers.used, answers.taken(), answers.refused());
    let (count, packed) = (both.paper.count, answers.packed());
    let refusal = answer.as_ref().err().copied().unwrap_or(0);
    let captured = Captured { refusal, count, used, taken, refused, packed };
    let said = sys::receive_capture_columns(lent.head, &mut lent.keys, &mut lent.heard, capture);
    assert_eq!(said, captured, "{capture:02x?} in {both:?}");
    let captured = twimbor::Captured { used, taken, refused, packed };
    let expected = answer.as_ref().map(|_| captured).map_err(|&number| number);
    let said = both.library.receive_capture(capture).map_err(Refusal::number);
    assert_eq!(said, expected, "{capture:02x?}");
    assert_eq!((lent.keys, lent.heard), (both.library.keys, both.library.heard), "{capture:02x?}");
    both.compare();
    answer
}

/// The library's own receiver, given the frames one by one, leaves the same table.
fn compare_with_single_packets(before: &Both, after: &Both, capture: &[u8]) {
    let mut table = before.library.clone();
    for packet in paper::packets(capture).0 {
        let _ = table.receive(packet);
    }
    assert_eq!(table, after.library, "{capture:02x?}");
}

/// How a capture ends, and other things that it may have.
const MET: [&str; 9] = [
    "nothing at all",
    "one byte alone",
    "whole frames only",
    "a byte left",
    "a length left",
    "a packet cut short",
    "an empty packet",
    "more than 255 bytes in a packet",
    "a full table",
];

fn count_met(both: &Both, capture: &[u8], counts: &mut [usize; MET.len()]) {
    let (packets, left) = paper::packets(capture);
    let met = [
        capture.is_empty(),
        capture.len() == 1,
        !capture.is_empty() && left.is_empty(),
        left.len() == 1,
        left.len() == 2,
        left.len() > 2,
        packets.iter().any(|packet| packet.is_empty()),
        packets.iter().any(|packet| packet.len() > 255),
        both.paper.count == 128,
    ];
    for (count, met) in counts.iter_mut().zip(met) {
        *count += usize::from(met);
    }
}

/// Any table, valid or not, gets one capture.
#[test]
fn captures_are_received_as_on_paper() {
    let random = &Random::new(12);
    let (mut calls, mut packets, mut met) = (Tally::default(), Tally::default(), [0; MET.len()]);
    for i in 0..CAPTURES {
        let table = if i % 4 == 0 { broken_table(random) } else { table(random) };
        let capture = capture(random, &table);
        let before = Both::of(table);
        let mut both = before.clone();
        let answer = receive_capture(&mut both, &capture);
        if let Ok(answers) = &answer {
            answers.numbers.iter().for_each(|&number| packets.add(number_of(number)));
            count_met(&both, &capture, &mut met);
        }
        compare_with_single_packets(&before, &both, &capture);
        calls.add(answer);
    }
    calls.finish("receive_capture", &[16]);
    packets.finish("packets of captures", &[1, 2, 3, 4, 5, 6, 7, 8, 9, 10, 11, 17]);
    println!("captures with {:?}", Vec::from_iter(MET.iter().zip(met)));
    assert!(!met.contains(&0));
}

fn number_of(number: u8) -> Result<(), u8> {
    if number == 0 { Ok(()) } else { Err(number) }
}

/// Hands a capture over in pieces, what one call leaves put before the next piece. Answers what all
/// of the calls say together.
fn in_pieces<'a>(both: &mut Both, pieces: impl IntoIterator<Item = &'a [u8]>) -> Answers {
    let (mut buffer, mut all) = (Vec::new(), Answers::default());
    for piece in pieces {
        buffer.extend_from_slice(piece);
        let answers = receive_capture(both, &buffer).unwrap();
        all.numbers.extend(answers.numbers);
        all.used += answers.used;
        buffer.drain(..answers.used);
        assert!(buffer.len() < 65_537);
    }
    all
}

/// Some captures, cut at every place: what is before the place, where the rest follows it in memory
/// but is not lent; and then the rest.
#[test]
fn captures_may_be_cut_at_every_place() {
    let random = &Random::new(13);
    let (mut cuts, mut packets) = (0, Tally::default());
    for _ in 0..300 {
        let before = Both::of(table(random));
        let mut capture = frames(random, &before.paper, 6).concat();
        capture.truncate(250);
        let mut whole = before.clone();
        let answers = receive_capture(&mut whole, &capture).unwrap();
        for cut in 0..=capture.len() {
            let (start, rest) = capture.split_at(cut);
            assert!(receive_capture(&mut before.clone(), start).is_ok());
            let mut both = before.clone();
            assert_eq!(in_pieces(&mut both, [start, rest]), answers);
            assert_eq!(both.library, whole.library);
            cuts += 1;
        }
        let mut both = before.clone();
        assert_eq!(in_pieces(&mut both, capture.chunks(1)), answers);
        assert_eq!(both.library, whole.library);
        answers.numbers.iter().for_each(|&number| packets.add(number_of(number)));
    }
    println!("cuts in two: {cuts}");
    packets.finish("packets of cut captures", &[1, 2, 3, 4, 5, 6, 7, 8, 9, 10, 11, 17]);
}

/// Captures handed over in pieces of any length, empty ones too.
#[test]
fn captures_may_come_in_pieces() {
    let random = &Random::new(14);
    let (mut handed, mut left) = (0, 0);
    for _ in 0..3_000 {
        let before = Both::of(table(random));
        let capture = capture(random, &before.paper);
        let mut whole = before.clone();
        let answers = receive_capture(&mut whole, &capture).unwrap();
        let longest = random.pick(&[3, 30, 300]);
        let (mut pieces, mut rest) = (Vec::new(), &capture[..]);
        while !rest.is_empty() {
            let (piece, after) = rest.split_at(random.index(longest).min(rest.len()));
            pieces.push(piece);
            rest = after;
        }
        handed += pieces.len();
        left += usize::from(answers.used < capture.len());
        let mut both = before.clone();
        assert_eq!(in_pieces(&mut both, pieces), answers);
        assert_eq!(both.library, whole.library);
    }
    println!("pieces: {handed}; captures with bytes left at the end: {left}");
    assert!(left > 0);
}

/// A packet that a table takes, of 16 bytes; and one of 65,535 with an extension and padding around
/// the same payload.
fn short_and_long(table: &Table) -> (Vec<u8>, Vec<u8>) {
    let short = packet::bytes(&Report {
        payload_type: u32::from(table.payload_type),
        timestamp: table.origin,
        ssrc: table.ssrc,
        code: 5,
        duration: 400,
        ..Report::default()
    });
    let words: u16 = 16_378;
    let mut long = short[..12].to_vec();
    long[0] = 0b1011_0000;
    long.extend([0, 0]);
    long.extend(words.to_be_bytes());
    long.resize(long.len() + 4 * usize::from(words), 0xAB);
    long.extend(&short[12..]);
    long.extend([0, 0, 3]);
    (short, long)
}

/// The longest frames, between short ones, cut near each of their ends, and in pieces.
#[test]
fn the_longest_frames_are_received_as_on_paper() {
    let (table, _) = table::open(Codes::of([5]), 101, 0x1122_3344, 7);
    let (short, long) = short_and_long(&table);
    assert_eq!(long.len(), 65_535);
    let packed = [&short[..12], &[0; 65_520]].concat();
    let other = vec![0x80; 65_535];
    let capture = [&long, &short, &packed, &other, &short].map(|packet| framed(packet)).concat();
    let numbers = [0, 0, 17, 5, 0];
    let ends = [0, 65_537, 65_555, 131_089, 196_626, 196_644];
    for (whole, end) in ends.into_iter().enumerate() {
        let last = ends.get(whole + 1).map_or(end, |next| next - 1);
        for cut in [end, end + 1, end + 2, end + 3, last] {
            let mut both = Both::of(table.clone());
            let answers = receive_capture(&mut both, &capture[..cut.min(capture.len())]);
            assert_eq!(answers, Ok(Answers { used: end, numbers: numbers[..whole].to_vec() }));
        }
    }
    for longest in [1_000, 65_536, 65_537, 65_538] {
        let mut both = Both::of(table.clone());
        let answers = in_pieces(&mut both, capture.chunks(longest));
        assert_eq!(answers, Answers { used: capture.len(), numbers: numbers.to_vec() });
    }
}
