//! The walker over a redundant packet's blocks, and the writer.

use crate::both::library_codes;
use crate::make::blocks::{Block, damaged, data, offset, payload};
use crate::make::codes::codes;
use crate::make::{self, packets::carrying};
use crate::paper::blocks as paper;
use crate::paper::codes::{Codes, EMPTY};
use crate::paper::packet;
use crate::random::Random;
use crate::tally::Tally;
use twimbor::sys::{self, Cursor, WalkStarted};
use twimbor::{Blocks, OlderReport, Refusal, Report};

pub const INPUTS: usize = WALKS + CURSORS + WRITES;
const WALKS: usize = 200_000;
const CURSORS: usize = 600_000;
const WRITES: usize = 150_000;

/// Walks with the library and on paper: the start, each step, what the iterator hands out, and that
/// these are parts of the packet itself, one after another. Answers how many blocks.
fn walk(packet: &[u8]) -> Result<usize, u8> {
    let start = paper::walk_start(packet);
    let mut cursor = start.unwrap_or_default();
    let started = WalkStarted { cursor, refusal: start.err().unwrap_or(0) };
    assert_eq!(sys::walk_start(packet), started, "{packet:02x?}");
    let walker = Blocks::of(packet).map_err(Refusal::number);
    if start.is_err() {
        assert_eq!(walker.err(), start.err(), "{packet:02x?}");
        assert!(!sys::block_step(packet, cursor).found);
        return start.map(|_| 0);
    }
    let (mut walker, mut blocks, mut at) = (walker.unwrap(), 0, cursor.body);
    for step in paper::steps(packet).unwrap() {
        assert_eq!(sys::block_step(packet, cursor), step, "{packet:02x?}");
        assert_eq!(paper::step(packet, cursor), step, "{packet:02x?}");
        cursor = step.after;
        let next = walker.next();
        assert_eq!(next.is_some(), step.found);
        if let Some(block) = next {
            let said = (block.payload_type, block.offset, block.primary);
            assert_eq!(said, (step.payload_type, step.offset, step.primary));
            assert_eq!(block.data.as_ptr_range(), packet[step.start..step.end].as_ptr_range());
            assert_eq!(step.start, at);
            (at, blocks) = (step.end, blocks + 1);
        }
    }
    assert_eq!(at, cursor.end);
    Ok(blocks)
}

fn any_block(random: &Random) -> Block {
    let payload_type = random.pick(&[0, 101, 127, random.below(128) as u8]);
    Block { payload_type, offset: offset(random), data: data(random) }
}

fn any_blocks(random: &Random) -> Vec<Block> {
    let n = random.pick(&[1, 2, 3, 1 + random.index(8), 1 + random.index(60)]);
    (0..n).map(|_| any_block(random)).collect()
}

#[test]
fn blocks_are_walked_as_on_paper() {
    let random = &Random::new(15);
    let (mut tally, mut blocks) = (Tally::default(), 0);
    for _ in 0..WALKS {
        let answer = walk(&damaged(random, &make::report(random, &EMPTY), &any_blocks(random)));
        blocks += answer.unwrap_or(0);
        tally.add(answer);
    }
    tally.finish("walk", &[1, 2, 3, 4, 18, 19]);
    println!("blocks handed out: {blocks}");
}

/// What comes after the cut follows it in memory, but is not lent.
#[test]
fn redundant_packets_may_be_cut_at_every_byte() {
    let random = &Random::new(16);
    let mut tally = Tally::default();
    for _ in 0..1_000 {
        let blocks: Vec<_> = (0..1 + random.index(5)).map(|_| any_block(random)).collect();
        let mut packet = carrying(random, &make::report(random, &EMPTY), &payload(&blocks));
        if random.bool() {
            packet[0] &= 0b1101_1111; // no padding, which a cut would mostly make bad
        }
        (0..=packet.len().min(400)).for_each(|cut| tally.add(walk(&packet[..cut])));
    }
    tally.finish("walk over cut packets", &[1, 3, 4, 18, 19]);
}

/// Every offset with the lengths at the ends, every length with the offsets at the ends, with as
/// many bytes as the length says, one fewer and one more.
#[test]
fn block_headers_are_read_up_to_their_borders() {
    let (offsets, lengths) = ([0, 1, 16_382, 16_383], [0, 1, 1_022, 1_023]);
    let mut pairs: Vec<(u16, usize)> =
        (0..16_384).flat_map(|offset| lengths.map(|length| (offset, length))).collect();
    pairs.extend((0..1_024).flat_map(|length| offsets.map(|offset| (offset, length))));
    let mut packet = vec![0; 12 + 5 + 1_024];
    packet[0] = 0x80;
    for (i, &(offset, length)) in pairs.iter().enumerate() {
        let older = Block { payload_type: (i % 128) as u8, offset, data: vec![0; length] };
        let last = Block { payload_type: 127, offset: 0, data: Vec::new() };
        packet[12..17].copy_from_slice(&payload(&[older, last])[..5]);
        if length > 0 {
            assert_eq!(walk(&packet[..17 + length - 1]), Err(19));
        }
        assert_eq!(walk(&packet[..17 + length]), Ok(2));
        assert_eq!(walk(&packet[..17 + length + 1]), Ok(2));
        let block = Blocks::of(&packet[..17 + length]).unwrap().next().unwrap();
        assert_eq!((block.offset, block.data.len()), (offset, length));
        assert_eq!(usize::from(block.payload_type), i % 128);
    }
    println!("pairs of offset and length: {}", pairs.len());
}

/// As many headers as the longest packet in a frame can have, and more.
#[test]
fn packets_of_many_blocks_are_walked_as_on_paper() {
    for older in [16_000, 16_380, 70_000] {
        let empty = Block { payload_type: 101, offset: 16_383, data: Vec::new() };
        let mut blocks = vec![empty; older];
        blocks.push(Block { payload_type: 96, offset: 0, data: vec![7, 8] });
        let header = packet::bytes(&Report { duration: 1, ..Report::default() });
        let packet = [&header[..12], &payload(&blocks)].concat();
        assert_eq!(walk(&packet), Ok(older + 1));
        assert_eq!(walk(&packet[..packet.len() - 2]), Ok(older + 1));
        for cut in [3, 4, 5, 6, 7] {
            assert_eq!(walk(&packet[..packet.len() - cut]), Err(18));
        }
        let mut too_long = packet.clone();
        too_long[12 + 4 * older - 1] = 2;
        assert_eq!(walk(&too_long), Ok(older + 1));
        too_long[12 + 4 * older - 1] = 3;
        assert_eq!(walk(&too_long), Err(19));
        // The sum of all lengths: more than 16 bits, and more than the packet.
        let far_too_long = [&header[..12], &[0xFF].repeat(4 * older), &[96], &[0; 9_000]].concat();
        assert_eq!(walk(&far_too_long), Err(19));
    }
}

/// Cursors of any numbers: within the packet, just outside, and so large that a sum would wrap;
/// often one of a walk, with one number changed.
#[test]
fn any_cursor_is_answered_as_on_paper() {
    let random = &Random::new(17);
    let (mut found, mut older) = (0, 0);
    for _ in 0..CURSORS / 20 {
        let blocks: Vec<_> = (0..1 + random.index(4)).map(|_| any_block(random)).collect();
        let mut packet = damaged(random, &make::report(random, &EMPTY), &blocks);
        packet.truncate(random.pick(&[40, 100, usize::MAX]));
        for _ in 0..20 {
            let number = || match random.below(8) {
                0 => random.pick(&[0, 1, 12, packet.len()]),
                1 => (packet.len() + random.index(6)).saturating_sub(3),
                2 => usize::MAX - random.index(1_200),
                3 => random.u64() as usize,
                _ => random.index(packet.len() + 1),
            };
            let mut cursor = paper::walk_start(&packet).unwrap_or_default();
            for _ in 0..random.index(4) {
                cursor = paper::step(&packet, cursor).after;
            }
            match random.below(6) {
                0 => cursor.header = number(),
                1 => cursor.body = number(),
                2 => cursor.end = number(),
                3 => cursor.end = packet.len(),
                _ => cursor = Cursor { header: number(), body: number(), end: number() },
            }
            let step = sys::block_step(&packet, cursor);
            assert_eq!(step, paper::step(&packet, cursor), "{packet:02x?} at {cursor:?}");
            let short = sys::header_step(&packet, cursor);
            let length = if step.primary { 0 } else { step.end - step.start };
            assert_eq!((short.next, usize::from(short.length)), (step.after.header, length));
            assert_eq!((short.offset, short.payload_type), (step.offset, step.payload_type));
            assert_eq!((short.primary, short.found), (step.primary, step.found));
            found += usize::from(step.found);
            older += usize::from(step.found && !step.primary);
        }
    }
    println!("cursors: {CURSORS}, with a block: {found}, of them not the primary: {older}");
    assert!(older > CURSORS / 50 && found - older > CURSORS / 50 && found < CURSORS / 2);
}

/// An older report, often on both sides of the oldest that there may be.
fn older(random: &Random, codes: &Codes, report: &Report) -> OlderReport {
    let edge = random.pick(&[0, 1, 16_382, 16_383, 16_384, 16_385, 32_767, 65_536, u32::MAX]);
    let behind = random.pick(&[random.below(16_384), random.below(16_384), edge]);
    let any = OlderReport::from(make::report(random, codes));
    let behind = if random.one_in(32) { random.u32() } else { behind };
    OlderReport { timestamp: report.timestamp.wrapping_sub(behind), ..any }
}

/// Writes with the library and on paper; the first so many older reports count. Lends the first so
/// many bytes of a larger output, so that a byte written too far is seen.
fn write(
    random: &Random,
    (codes, report, redundant_type): (&Codes, &Report, u32),
    (older, count): (&[OlderReport; 4], u32),
    bytes: usize,
) -> Result<usize, u8> {
    let set = library_codes(codes);
    let counted = &older[..older.len().min(count as usize)];
    let before = random.bytes(bytes + 8);
    let mut expected = before.clone();
    let output = &mut expected[..bytes];
    let answer = paper::write_redundant(codes, report, redundant_type, counted, output);
    let mut output = before.clone();
    let two = [older[0], older[1]];
    let lent = &mut output[..bytes];
    let refusal = sys::write_redundant(set, *report, redundant_type, count, two, lent);
    let said = (refusal, &output);
    assert_eq!(said, (answer.err().unwrap_or(0), &expected), "{count} of {older:?}, {report:?}");
    let mut output = before.clone();
    let said = report.write_redundant(set, redundant_type, counted, &mut output[..bytes]);
    let said = (said.map_err(Refusal::number), &output);
    assert_eq!(said, (answer, &expected), "{count} of {older:?}, {report:?}");
    answer
}

/// The walker hands out what was written, as it was given.
fn compare_with_walk(codes: &Codes, packet: &[u8], report: &Report, older: &[OlderReport]) {
    let header = packet::header(packet).unwrap();
    let given = older.iter().copied().chain([OlderReport::from(report)]);
    for (block, given) in Blocks::of(packet).unwrap().zip(given) {
        let said = paper::as_packet(
            &header,
            &paper::Block {
                payload_type: block.payload_type,
                offset: block.offset,
                is_primary: block.primary,
                data: block.data,
            },
        );
        let marker = report.marker && block.primary;
        let OlderReport { timestamp, code, ended, volume, duration } = given;
        let whole = Report { marker, timestamp, code, ended, volume, duration, ..*report };
        assert_eq!(packet::report(codes, &said), Ok(whole));
    }
    assert_eq!(Blocks::of(packet).unwrap().count(), older.len() + 1);
}

#[test]
fn redundant_packets_are_written_as_on_paper() {
    let random = &Random::new(18);
    let (mut tally, mut by_count) = (Tally::default(), [0; 3]);
    for _ in 0..WRITES {
        let codes = codes(random);
        let report = make::report(random, &codes);
        let older = [(); 4].map(|_| older(random, &codes, &report));
        let same = random.pick(&[0, 0, 128, 256, 1 << 31]) + report.payload_type % 128;
        let redundant_type = if random.one_in(8) { same } else { make::number(random, 0, 127) };
        let many = random.pick(&[3, 4, 255, 256, 257, 1 << 31, u32::MAX]);
        let count = random.pick(&[0, 0, 1, 1, 2, 2, many]);
        let whole = 17 + 8 * count.min(4) as usize;
        let bytes = random.pick(&[0, whole - 1, whole, whole, whole + 1, random.index(60)]);
        let given = (&codes, &report, redundant_type);
        let answer = write(random, given, (&older, count), bytes);
        tally.add(answer);
        if let Ok(bytes) = answer {
            let (mut packet, older) = ([0; 33], &older[..count as usize]);
            let set = library_codes(&codes);
            let written = report.write_redundant(set, redundant_type, older, &mut packet);
            assert_eq!(written, Ok(bytes));
            compare_with_walk(&codes, &packet[..bytes], &report, older);
            by_count[count as usize] += 1;
        }
    }
    tally.finish("write_redundant", &[12, 14]);
    println!("redundant packets written with 0, 1 and 2 older reports: {by_count:?}");
    assert!(by_count.iter().all(|&count| count > WRITES / 100));
}
