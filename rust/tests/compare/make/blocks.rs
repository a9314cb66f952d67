//! Redundant packets: blocks of every type and length, cut, damaged, and strange.

use super::packets::{carrying, damage, payload_of, report_for};
use crate::paper::table::Table;
use crate::random::Random;
use twimbor::Report;

/// A block that goes into a packet. The last one's offset is not written.
#[derive(Clone, Debug)]
pub struct Block {
    pub payload_type: u8,
    pub offset: u16,
    pub data: Vec<u8>,
}

/// The headers of the blocks, the last one's of one byte, then their data.
pub fn payload(blocks: &[Block]) -> Vec<u8> {
    let mut payload = Vec::new();
    for Block { payload_type, offset, data } in &blocks[..blocks.len() - 1] {
        payload.push(0x80 | payload_type);
        payload.extend([(offset >> 6) as u8, (offset << 2) as u8 | (data.len() >> 8) as u8]);
        payload.push(data.len() as u8);
    }
    payload.push(blocks[blocks.len() - 1].payload_type);
    payload.extend(blocks.iter().flat_map(|block| &block.data));
    payload
}

pub fn offset(random: &Random) -> u16 {
    random.pick(&[0, 1, 16_382, 16_383, random.below(16_384) as u16, random.below(500) as u16])
}

/// Any bytes, of any length that a block may have.
pub fn data(random: &Random) -> Vec<u8> {
    let edge = random.pick(&[0, 1, 3, 4, 5, 8, 12, 1_022, 1_023]);
    random.bytes(random.pick(&[edge, random.index(20), random.index(1_024)]))
}

/// A block for a table, in a packet with this timestamp: most are of the event's type and carry one
/// report, some of a timestamp that the table holds.
pub fn block_for(random: &Random, table: &Table, timestamp: u32) -> Block {
    let (event, redundant) = (table.payload_type % 128, table.redundant_type % 128);
    let report = report_for(random, table);
    let behind = timestamp.wrapping_sub(report.timestamp);
    Block {
        payload_type: random.pick(&[event, event, event, redundant, random.below(128) as u8]),
        offset: if behind < 16_384 { behind as u16 } else { offset(random) },
        data: if random.one_in(8) { data(random) } else { payload_of(random, &report) },
    }
}

/// A redundant packet for a table, with any form of header; now and then damaged.
pub fn redundant_for(random: &Random, table: &Table) -> Vec<u8> {
    let mut report = report_for(random, table);
    report.timestamp = report.timestamp.wrapping_add(random.pick(&[0, 0, random.below(20_000)]));
    if !random.one_in(12) {
        report.payload_type = u32::from(table.redundant_type);
    }
    let n = random.pick(&[1, 1, 2, 3, 1 + random.index(6), 1 + random.index(30)]);
    let blocks: Vec<_> = (0..n).map(|_| block_for(random, table, report.timestamp)).collect();
    damaged(random, &report, &blocks)
}

/// A packet of these blocks, now and then with a damaged header of a block, or damaged anywhere.
pub fn damaged(random: &Random, report: &Report, blocks: &[Block]) -> Vec<u8> {
    let mut payload = payload(blocks);
    if random.one_in(8) {
        payload[random.index(4 * blocks.len() - 3)] ^= 1 << random.below(8);
    }
    if random.one_in(8) {
        payload.truncate(random.index(payload.len() + 1));
    }
    let mut packet = carrying(random, report, &payload);
    if random.one_in(8) {
        damage(random, &mut packet);
    }
    packet
}
