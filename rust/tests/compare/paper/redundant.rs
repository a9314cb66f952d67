//! Request 2: the receiver of redundant packets.

use super::blocks::{Block, as_packet, blocks};
use super::packet::{Header, header};
use super::table::{Answer, Table, is_valid, take};

/// A packet's header and its blocks of the event's type, a plain packet being one. Refusals 16, 1
/// to 6, 18 and 19.
pub fn event_blocks<'a>(
    table: &Table,
    packet: &'a [u8],
) -> Result<(Header<'a>, Vec<Block<'a>>), u8> {
    if !is_valid(table) {
        return Err(16);
    }
    let header = header(packet)?;
    let is_plain = header.payload_type == u32::from(table.payload_type);
    let is_redundant =
        table.both_types != 0 && header.payload_type == u32::from(table.redundant_type);
    if !is_plain && !is_redundant {
        return Err(5);
    }
    if header.ssrc != table.ssrc {
        return Err(6);
    }
    let payload_type = table.payload_type;
    if is_plain {
        let block = Block { payload_type, offset: 0, is_primary: true, data: header.payload };
        return Ok((header, vec![block]));
    }
    let mut blocks = blocks(header.payload)?;
    blocks.retain(|block| block.payload_type == payload_type);
    Ok((header, blocks))
}

/// Takes the blocks, one after another, if there are entries for all of them. What is answered to
/// each is its entry.
pub fn receive(table: &mut Table, packet: &[u8], entries: usize) -> Result<Vec<Answer>, u8> {
    let (header, blocks) = event_blocks(table, packet)?;
    if entries < blocks.len() {
        return Err(15);
    }
    Ok(blocks.iter().map(|block| take(table, &as_packet(&header, block))).collect())
}

/// The number that an entry holds, as `include/twimbor.h` says it.
pub fn number(answer: &Answer) -> u32 {
    let (refusal, is_new, probes) = match *answer {
        Ok((is_new, probes)) => (0, is_new, probes),
        Err((refusal, probes)) => (u32::from(refusal), false, probes),
    };
    refusal + if is_new { 256 } else { 0 } + 65_536 * probes as u32
}
