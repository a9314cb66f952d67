//! The second opening, and the receiver of redundant packets.

use crate::both::{Both, library, library_codes};
use crate::make::blocks::{Block, block_for, payload, redundant_for};
use crate::make::codes::{codes, some_codes};
use crate::make::packets::{damage, packet_for};
use crate::make::{self, tables};
use crate::paper::codes::Codes;
use crate::paper::redundant::{self as paper, event_blocks};
use crate::paper::table::{self, Answer, Table};
use crate::paper::{blocks, packet};
use crate::random::Random;
use crate::tables::{receive, sent};
use crate::tally::Tally;
use twimbor::sys::{self, BlocksReceived, Opened};
use twimbor::{Entry, Refusal, Report, Taken};

pub const INPUTS: usize = OPENINGS + 3 * TABLES + TURNS;
const OPENINGS: usize = 50_000;
const TABLES: usize = 60_000;
const TURNS: usize = 150_000;

/// Receives with the library and on paper; the tables go on as each leaves its own. Lends the first
/// so many entries of a longer list, so that one written too far is seen.
pub fn receive_redundant(
    random: &Random,
    both: &mut Both,
    packet: &[u8],
    room: usize,
) -> Result<Vec<Answer>, u8> {
    let before: Vec<Entry> = (0..room + 2).map(|_| Entry::from(random.u32())).collect();
    let mut lent = both.library.clone();
    let answer = paper::receive(&mut both.paper, packet, room);
    let answers = answer.as_deref().unwrap_or_default();
    let mut expected = before.clone();
    for (entry, answer) in expected.iter_mut().zip(answers) {
        *entry = Entry::from(paper::number(answer));
        compare_entry(entry, answer);
    }
    let refusal = answer.as_ref().err().copied().unwrap_or(0);
    let received = BlocksReceived { blocks: answers.len(), count: both.paper.count, refusal };
    let (mut entries, head) = (before.clone(), lent.head);
    let (keys, heard) = (&mut lent.keys, &mut lent.heard);
    let said = sys::receive_redundant_columns(head, keys, heard, packet, &mut entries[..room]);
    assert_eq!((said, &entries), (received, &expected), "{packet:02x?} in {both:?}");
    let mut entries = before;
    let said = both.library.receive_redundant(packet, &mut entries[..room]);
    let blocks = answer.as_ref().map(Vec::len).map_err(|&number| number);
    assert_eq!((said.map_err(Refusal::number), entries), (blocks, expected), "{packet:02x?}");
    assert_eq!((lent.keys, lent.heard), (both.library.keys, both.library.heard), "{packet:02x?}");
    both.compare();
    answer
}

fn compare_entry(entry: &Entry, answer: &Answer) {
    let taken = answer.map(|(is_new, _)| if is_new { Taken::New } else { Taken::Known });
    assert_eq!(entry.answer().map_err(Refusal::number), taken.map_err(|(number, _)| number));
    let (Ok((_, probes)) | Err((_, probes))) = *answer;
    assert_eq!(entry.probes() as usize, probes);
}

/// The library's receiver of plain packets, given each block as one, answers the same and leaves
/// the same table.
fn compare_with_single_blocks(before: &Both, after: &Both, packet: &[u8], answers: &[Answer]) {
    let mut table = before.library.clone();
    let (header, blocks) = event_blocks(&before.paper, packet).unwrap();
    for (block, answer) in blocks.iter().zip(answers) {
        let said = blocks::as_packet(&header, block);
        let mut plain = packet::bytes(&Report {
            marker: said.marker,
            payload_type: said.payload_type,
            timestamp: said.timestamp,
            ssrc: said.ssrc,
            ..Report::default()
        });
        plain.truncate(12);
        plain.extend(said.payload);
        let (taken, probes) = table.receive_counting(&plain);
        let taken = taken.map(|taken| (taken == Taken::New, probes));
        assert_eq!(taken.map_err(|refusal| (refusal.number(), probes)), *answer);
    }
    assert_eq!(table, after.library, "{packet:02x?}");
}

#[test]
fn second_openings_are_as_on_paper() {
    let random = &Random::new(19);
    let mut tally = Tally::default();
    for _ in 0..OPENINGS {
        let payload_type = make::number(random, 0, 127);
        let near = payload_type.wrapping_add(random.pick(&[0, 1, 128, 256, u32::MAX]));
        let redundant_type = random.pick(&[make::number(random, 0, 127), near]);
        let (set, ssrc, origin) = (codes(random), random.u32(), random.u32());
        let (table, answer) =
            table::open_redundant(set, payload_type, redundant_type, ssrc, origin);
        let opened = Opened { table: library(&table), refusal: answer.err().unwrap_or(0) };
        let set = library_codes(&set);
        let said = sys::open_redundant_table(set, payload_type, redundant_type, ssrc, origin);
        assert_eq!(said, opened);
        assert!(said.table.is_valid());
        let said = twimbor::Table::open_redundant(set, payload_type, redundant_type, ssrc, origin);
        assert_eq!(said.map_err(Refusal::number), answer.map(|()| opened.table));
        tally.add(answer);
    }
    tally.finish("second opening", &[12]);
}

/// What the packets that are received may meet.
const MET: [&str; 12] = [
    "a table of the first opening that says another type",
    "a second opening told by another byte than 1",
    "a plain packet to a table of the second opening",
    "no block of the event's type",
    "a block of the redundant type",
    "an offset across the wrap",
    "a primary that counts as marked",
    "a marked packet whose primary is of another type",
    "a block taken after a refused one",
    "a segment that is new in one block and known in a later one",
    "a table that gets full in the packet",
    "a known segment of a full table",
];

fn count_met(
    (before, after): (&Table, &Table),
    packet: &[u8],
    answers: &[Answer],
    counts: &mut [usize; MET.len()],
) {
    let (header, events) = event_blocks(before, packet).unwrap();
    let is_plain = header.payload_type == u32::from(before.payload_type);
    let all = if is_plain { events.clone() } else { blocks::blocks(header.payload).unwrap() };
    let has_primary = events.last().is_some_and(|block| block.is_primary);
    let place = |wanted: fn(&Answer) -> bool| answers.iter().position(wanted);
    let last = |wanted: fn(&Answer) -> bool| answers.iter().rposition(wanted);
    let is_new = |answer: &Answer| matches!(answer, Ok((true, _)));
    let keys: Vec<_> = events.iter().map(|block| (block.offset, block.data.first())).collect();
    let again = |i: usize| {
        is_new(&answers[i]) && (i + 1..keys.len()).any(|j| keys[j] == keys[i] && answers[j].is_ok())
    };
    let met = [
        before.both_types == 0 && before.redundant_type != before.payload_type,
        before.both_types > 1 && !is_plain,
        before.both_types != 0 && is_plain,
        events.is_empty(),
        all.iter().any(|block| !is_plain && block.payload_type == before.redundant_type),
        events.iter().any(|block| u32::from(block.offset) > header.timestamp),
        header.marker && !is_plain && has_primary && answers.last().is_some_and(Answer::is_ok),
        header.marker && !has_primary,
        place(Answer::is_err).is_some_and(|refused| last(Answer::is_ok) > Some(refused)),
        (0..keys.len()).any(again),
        before.count < 128 && after.count == 128,
        before.count == 128 && place(Answer::is_ok).is_some() && !is_plain,
    ];
    for (count, met) in counts.iter_mut().zip(met) {
        *count += usize::from(met);
    }
}

/// Any table, valid or not, gets one packet, with one entry too few, as many as needed, and more.
#[test]
fn any_table_receives_redundant_packets_as_on_paper() {
    let random = &Random::new(20);
    let (mut calls, mut blocks, mut met) = (Tally::default(), Tally::default(), [0; MET.len()]);
    for i in 0..TABLES {
        let table = if i % 4 == 0 { tables::broken_table(random) } else { tables::table(random) };
        let before = Both::of(table);
        let packet = match random.below(8) {
            0 => packet_for(random, &before.paper),
            _ => redundant_for(random, &before.paper),
        };
        let n = event_blocks(&before.paper, &packet).map_or(0, |(_, blocks)| blocks.len());
        for room in [n.saturating_sub(1), n, n + 1 + random.index(3)] {
            let mut both = before.clone();
            let answer = receive_redundant(random, &mut both, &packet, room);
            assert_eq!(answer == Err(15), room < n);
            if let Ok(answers) = &answer {
                compare_with_single_blocks(&before, &both, &packet, answers);
                answers.iter().for_each(|answer| blocks.add(answer.map_err(|(number, _)| number)));
                count_met((&before.paper, &both.paper), &packet, answers, &mut met);
            }
            calls.add(answer);
        }
    }
    calls.finish("receive_redundant", &[1, 2, 3, 4, 5, 6, 15, 16, 18, 19]);
    blocks.finish("blocks received", &[7, 8, 9, 10, 11, 17]);
    println!("packets with {:?}", Vec::from_iter(MET.iter().zip(met)));
    assert!(!met.contains(&0));
}

/// What comes after the cut follows it in memory, but is not lent.
#[test]
fn redundant_packets_may_be_cut_when_received() {
    let random = &Random::new(24);
    let mut tally = Tally::default();
    for _ in 0..400 {
        let before = Both::of(tables::table(random));
        let mut packet = redundant_for(random, &before.paper);
        packet.truncate(200);
        for cut in 0..=packet.len() {
            let room = random.pick(&[0, 2, 50]);
            let answer = receive_redundant(random, &mut before.clone(), &packet[..cut], room);
            tally.add(answer);
        }
    }
    tally.finish("receive_redundant of cut packets", &[1, 2, 3, 4, 5, 6, 15, 18, 19]);
}

/// Packets one after another on an opened table, each to one of the two receivers: plain and
/// redundant, of some plans and others, in any order, repeated, damaged.
#[test]
fn a_table_receives_from_both_receivers_as_on_paper() {
    let random = &Random::new(21);
    let (mut plain, mut redundant) = (Tally::default(), Tally::default());
    let mut blocks = Tally::default();
    for _ in 0..TURNS / 500 {
        let payload_type = random.below(128);
        let other = (payload_type + 1 + random.below(127)) % 128;
        let codes = some_codes(random);
        let (table, answer) =
            table::open_redundant(codes, payload_type, other, random.u32(), random.u32());
        assert!(answer.is_ok());
        let mut both = Both::of(table);
        let sent: Vec<_> = (0..8).flat_map(|_| sent(random, &both.paper)).collect();
        for _ in 0..500 {
            let mut packet = match random.below(4) {
                0 => random.pick(&sent),
                1 => packet_for(random, &both.paper),
                2 => redundant_for(random, &both.paper),
                _ => copies(random, &both.paper, &sent),
            };
            if random.one_in(10) {
                damage(random, &mut packet);
            }
            if random.one_in(3) {
                plain.add(receive(&mut both, &packet));
                continue;
            }
            let room = random.pick(&[0, 1, 2, 10, 100, 400]);
            let answer = receive_redundant(random, &mut both, &packet, room);
            for answer in answer.iter().flatten() {
                blocks.add(answer.map_err(|(number, _)| number));
            }
            redundant.add(answer);
        }
    }
    plain
        .finish("receive in turn with redundant packets", &[1, 2, 3, 4, 5, 6, 7, 8, 9, 10, 11, 17]);
    redundant.finish("receive_redundant in turn", &[1, 2, 3, 4, 5, 6, 15, 18, 19]);
    blocks.finish("blocks received in turn", &[7, 8, 9, 10, 11, 17]);
}

/// A redundant packet of what plain packets carry: the last as the primary, and copies of others,
/// at their own timestamps if these are near enough.
fn copies(random: &Random, table: &Table, sent: &[Vec<u8>]) -> Vec<u8> {
    let primary = random.pick(sent);
    let timestamp = |packet: &[u8]| u32::from_be_bytes(*packet[4..].first_chunk().unwrap());
    let mut blocks = Vec::new();
    for _ in 0..random.index(4) {
        let copy = random.pick(sent);
        let behind = timestamp(&primary).wrapping_sub(timestamp(&copy));
        let (payload_type, data) = (table.payload_type, copy[12..].to_vec());
        blocks.push(Block { payload_type, offset: behind as u16 % 16_384, data });
    }
    blocks.push(Block {
        payload_type: table.payload_type,
        offset: 0,
        data: primary[12..].to_vec(),
    });
    let mut packet = primary[..12].to_vec();
    packet[1] = packet[1] & 0x80 | table.redundant_type;
    packet.extend(payload(&blocks));
    packet
}

/// The longest packet of a frame has room for 16,381 blocks, all of them of the event's type or
/// some.
#[test]
fn packets_of_many_blocks_are_received_as_on_paper() {
    let random = &Random::new(22);
    let keys = Codes::of(0..=15);
    let (table, _) = table::open_redundant(keys, 101, 96, 0x1122_3344, 5);
    let report =
        Report { payload_type: 96, ssrc: 0x1122_3344, timestamp: 9_000, ..Report::default() };
    let mut blocks = Tally::default();
    for (older, types) in [(16_380, &[101][..]), (16_000, &[101, 96, 7]), (8_000, &[101, 101, 7])] {
        let mut made: Vec<_> = (0..older).map(|_| block_for(random, &table, 9_000)).collect();
        for block in &mut made {
            block.payload_type = random.pick(types);
            block.offset = random.below(16_384) as u16;
            if older > 8_000 {
                block.data.clear();
            }
        }
        made.push(Block { payload_type: 101, offset: 0, data: vec![5, 10, 1, 144] });
        let packet = [&packet::bytes(&report)[..12], &payload(&made)].concat();
        let n = made.iter().filter(|block| block.payload_type == 101).count();
        let mut both = Both::of(table.clone());
        assert_eq!(receive_redundant(random, &mut both, &packet, n - 1), Err(15));
        assert_eq!(both.paper, table);
        let answers = receive_redundant(random, &mut both, &packet, n).unwrap();
        assert_eq!(answers.len(), n);
        answers.iter().for_each(|answer| blocks.add(answer.map_err(|(number, _)| number)));
    }
    blocks.finish("blocks of long packets", &[7, 8, 9, 10, 11, 17]);
}
