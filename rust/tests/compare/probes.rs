//! How many segments are looked at when a packet is received: for each number held, and each place
//! that a report's pair can have among them.

use crate::both::Both;
use crate::paper::codes::Codes;
use crate::paper::packet;
use crate::paper::table::{self, Segment, Table};
use crate::tables::receive_counting;
use std::array;
use twimbor::{Report, Taken};

/// Offsets are multiples of this: those of a full table lie all over the range, with a gap after
/// each.
const STEP: u32 = 16_000_000;

/// The pairs of offset and code that are held: every other multiple, with the codes 1 and 3.
fn pair(place: usize) -> (u32, u8) {
    let (row, second) = (place as u32 / 2, place as u8 % 2);
    ((2 * row + 1) * STEP, 1 + 2 * second)
}

/// A table that holds the first n pairs. The others stand in the places above, and are not held.
fn table(n: usize) -> Table {
    let segments = array::from_fn(|place| {
        let (offset, code) = pair(place);
        Segment { offset: u64::from(offset), code, duration: 1, ..Segment::default() }
    });
    let (opened, _) = table::open(Codes::of(0..=4), 101, 0x1122_3344, 0xFFFF_FFF0);
    Table { count: n, segments, ..opened }
}

/// The packet of a pair for a table.
fn packet_of(table: &Table, (offset, code): (u32, u8)) -> Vec<u8> {
    packet::bytes(&Report {
        payload_type: u32::from(table.payload_type),
        timestamp: table.origin.wrapping_add(offset),
        ssrc: table.ssrc,
        code: u32::from(code),
        duration: 1,
        ..Report::default()
    })
}

/// Each pair is looked for in a table of its own: before all segments, at each, between each two,
/// by offset or by code alone, and after all.
#[test]
fn probes_are_counted_as_on_paper() {
    let (mut counts, mut refused) = ([0; 9], 0);
    for n in 0..=128 {
        let (table, held) = (table(n), Vec::from_iter((0..n).map(pair)));
        let rows = n.div_ceil(2) as u32;
        let offsets = (0..=2 * rows).map(|multiple| multiple * STEP);
        let mut places = vec![0; n + 1];
        for pair in offsets.flat_map(|offset| (0..=4).map(move |code| (offset, code))) {
            let mut both = Both::of(table.clone());
            let (answer, probes) = receive_counting(&mut both, &packet_of(&table, pair));
            let new = if n == 128 { Err(11) } else { Ok(Taken::New) };
            assert_eq!(answer, if held.contains(&pair) { Ok(Taken::Known) } else { new });
            let place = held.iter().filter(|&&smaller| smaller < pair).count();
            match n {
                0 | 1 => assert_eq!(probes, n),
                127 => assert_eq!(probes, 7),
                128 => assert_eq!(probes, if place < 2 { 8 } else { 7 }),
                _ => assert!(probes <= 7),
            }
            places[place] += 1;
            counts[probes] += 1;
            refused += usize::from(answer == Err(11));
        }
        assert!(!places.contains(&0));
    }
    println!("pairs looked for, by probes from 0 to 8: {counts:?}; of them refused: {refused}");
}

/// Packets made from one that would be taken, each with the refusal that it gets instead.
fn strangers(good: &[u8]) -> Vec<(u8, Vec<u8>)> {
    let with = |place: usize, bytes: &[u8]| {
        let mut packet = good.to_vec();
        packet[place..place + bytes.len()].copy_from_slice(bytes);
        packet
    };
    let before_origin = 0xFFFF_FFEF_u32.to_be_bytes();
    vec![
        (1, good[..11].to_vec()),
        (2, with(0, &[0x40])),
        (3, with(0, &[0x82])),
        (4, [&with(0, &[0xA0]), &[0][..]].concat()),
        (5, with(1, &[102])),
        (6, with(11, &[0x45])),
        (7, good[..15].to_vec()),
        (17, [good, &good[12..]].concat()),
        (8, with(12, &[5])),
        (9, with(14, &[0, 0])),
        (10, with(4, &before_origin)),
    ]
}

#[test]
fn nothing_is_looked_at_before_the_search() {
    for n in [0, 1, 2, 3, 64, 127, 128] {
        let good = table(n);
        let packet = packet_of(&good, pair(0));
        for (number, stranger) in strangers(&packet) {
            let answer = receive_counting(&mut Both::of(good.clone()), &stranger);
            assert_eq!(answer, (Err(number), 0));
        }
        let high_type = Table { payload_type: 128, ..good.clone() };
        let too_many = Table { count: 129, ..good.clone() };
        let mut no_duration = good.clone();
        no_duration.segments[n.saturating_sub(1)].duration = 0;
        no_duration.count = n.max(1);
        for failing in [high_type, too_many, no_duration] {
            assert_eq!(receive_counting(&mut Both::of(failing), &packet), (Err(16), 0));
        }
    }
}
