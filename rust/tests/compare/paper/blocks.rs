//! Request 2: the blocks of a redundant packet, the walker over them, and the writer.

use super::codes::Codes;
use super::packet::{self, Header};
use twimbor::sys::{BlockStepResult, Cursor};
use twimbor::{OlderReport, Report};

/// A block, in the order of its header: its type, its offset, and its data.
#[derive(Clone, Debug, PartialEq, Eq)]
pub struct Block<'a> {
    pub payload_type: u8,
    pub offset: u16,
    pub is_primary: bool,
    pub data: &'a [u8],
}

/// The block header at the start of some bytes, and how many bytes it has. It says a payload type
/// and, if it is not the last one, an offset and a length.
type BlockHeader = (u8, Option<(u16, usize)>, usize);

fn block_header(bytes: &[u8]) -> Option<BlockHeader> {
    if *bytes.first()? < 128 {
        return Some((bytes[0], None, 1));
    }
    let bits = u32::from_be_bytes(*bytes.first_chunk()?);
    let (offset, length) = (bits / 1_024 % 16_384, bits % 1_024);
    Some((bytes[0] % 128, Some((offset as u16, length as usize)), 4))
}

/// All blocks of a payload. Refusals 18 and 19.
pub fn blocks(payload: &[u8]) -> Result<Vec<Block<'_>>, u8> {
    let (mut headers, mut rest, mut is_last) = (Vec::new(), payload, false);
    while !is_last {
        let (payload_type, older, bytes) = block_header(rest).ok_or(18)?;
        headers.push((payload_type, older));
        rest = &rest[bytes..];
        is_last = older.is_none();
    }
    let mut blocks = Vec::new();
    for (payload_type, older) in headers {
        let (offset, length) = older.unwrap_or((0, rest.len()));
        let (data, after) = rest.split_at_checked(length).ok_or(19)?;
        blocks.push(Block { payload_type, offset, is_primary: older.is_none(), data });
        rest = after;
    }
    Ok(blocks)
}

/// Where a part of a packet starts.
fn place(packet: &[u8], part: &[u8]) -> usize {
    part.as_ptr() as usize - packet.as_ptr() as usize
}

/// Where a walk starts. Refusals 1 to 4, 18 and 19.
pub fn walk_start(packet: &[u8]) -> Result<Cursor, u8> {
    let payload = packet::header(packet)?.payload;
    let blocks = blocks(payload)?;
    let header = place(packet, payload);
    Ok(Cursor { header, body: place(packet, blocks[0].data), end: header + payload.len() })
}

/// What the walker hands out, one after another, in a packet that it walks; in the end there is no
/// more, however often it is asked.
pub fn steps(packet: &[u8]) -> Result<Vec<BlockStepResult>, u8> {
    let payload = packet::header(packet)?.payload;
    let first = place(packet, payload);
    let end = first + payload.len();
    let blocks = blocks(payload)?;
    let steps = blocks.iter().zip(1..).map(|(block, n)| {
        let start = place(packet, block.data);
        let past = start + block.data.len();
        let header = if block.is_primary { end } else { first + 4 * n };
        BlockStepResult {
            after: Cursor { header, body: past, end },
            start,
            end: past,
            offset: block.offset,
            payload_type: block.payload_type,
            primary: block.is_primary,
            found: true,
        }
    });
    let nowhere = Cursor { header: end, body: end, end };
    let no_more = BlockStepResult { after: nowhere, ..BlockStepResult::default() };
    Ok(steps.chain([no_more; 2]).collect())
}

/// The block at a cursor of any numbers. It stands in the packet if the header and the data there
/// are the packet's, before the end that it tells.
pub fn step(packet: &[u8], cursor: Cursor) -> BlockStepResult {
    let found = || {
        let bytes = packet.get(..cursor.end)?.get(cursor.header..)?;
        let (payload_type, older, header_bytes) = block_header(bytes)?;
        let data = packet[..cursor.end].get(cursor.body..)?;
        let (offset, length) = older.unwrap_or((0, data.len()));
        let end = cursor.body + data.get(..length)?.len();
        let header = if older.is_some() { cursor.header + header_bytes } else { end };
        let after = Cursor { header, body: end, end: cursor.end };
        let (start, primary) = (cursor.body, older.is_none());
        Some(BlockStepResult { after, start, end, offset, payload_type, primary, found: true })
    };
    found().unwrap_or(BlockStepResult { after: cursor, ..BlockStepResult::default() })
}

/// What a block says, as a packet of its own would.
pub fn as_packet<'a>(header: &Header, block: &Block<'a>) -> Header<'a> {
    let timestamp = (i64::from(header.timestamp) - i64::from(block.offset)).rem_euclid(1 << 32);
    Header {
        marker: header.marker && block.is_primary,
        payload_type: u32::from(block.payload_type),
        sequence: header.sequence,
        timestamp: timestamp as u32,
        ssrc: header.ssrc,
        payload: block.data,
    }
}

/// Writes a report and the older ones that stand before it; answers how many bytes.
pub fn write_redundant(
    codes: &Codes,
    report: &Report,
    redundant_type: u32,
    older: &[OlderReport],
    output: &mut [u8],
) -> Result<usize, u8> {
    // An older report is written as the report is, with five numbers of its own.
    let whole = |older: &OlderReport| {
        let &OlderReport { timestamp, code, ended, volume, duration } = older;
        Report { timestamp, code, ended, volume, duration, ..*report }
    };
    let older: Vec<Report> = older.iter().map(whole).collect();
    let offset = |older: &Report| {
        (i64::from(report.timestamp) - i64::from(older.timestamp)).rem_euclid(1 << 32) as u32
    };
    if older.len() > 2
        || older
            .iter()
            .chain([report])
            .any(|one| packet::write(codes, one, &mut [0; 16]) == Err(12))
        || redundant_type > 127
        || redundant_type == report.payload_type
        || older.iter().any(|older| offset(older) > 16_383)
    {
        return Err(12);
    }
    let block_type = report.payload_type as u8;
    let mut bytes = packet::bytes(&Report { payload_type: redundant_type, ..*report });
    bytes.truncate(12);
    for older in &older {
        let offset_and_length = offset(older) * 1_024 + 4;
        bytes.push(128 + block_type);
        bytes.extend(&offset_and_length.to_be_bytes()[1..]);
    }
    bytes.push(block_type);
    for one in older.iter().chain([report]) {
        bytes.extend(&packet::bytes(one)[12..]);
    }
    output.get_mut(..bytes.len()).ok_or(14)?.copy_from_slice(&bytes);
    Ok(bytes.len())
}
