use core::iter::FusedIterator;

use crate::refusal::{Refusal, unless_refused};
use crate::sys;

/// A block of a redundant packet (RFC 2198).
#[derive(Clone, Copy, Debug, PartialEq, Eq, Hash)]
pub struct Block<'a> {
    /// 0 to 127.
    pub payload_type: u8,
    /// How much earlier than the packet's timestamp its own is, at most 16,383; 0 for the primary.
    pub offset: u16,
    /// It is the last block, the only one that can count as marked.
    pub primary: bool,
    /// The part of the packet that it carries.
    pub data: &'a [u8],
}

impl Block<'_> {
    /// The block's own timestamp, in a packet with this one: (the packet's - the offset) modulo
    /// 2^32.
    ///
    /// ```
    /// use twimbor::Block;
    ///
    /// let block = Block { payload_type: 101, offset: 400, primary: false, data: &[] };
    /// assert_eq!(block.timestamp(1000), 600);
    /// assert_eq!(block.timestamp(399), u32::MAX);
    /// ```
    pub fn timestamp(&self, packet_timestamp: u32) -> u32 {
        packet_timestamp.wrapping_sub(self.offset.into())
    }
}

/// A walker over the blocks of a redundant packet (RFC 2198), in packet order. Nothing is copied.
///
/// RFC 4733's Figure 5 has tones as the primary, and before it an event, 1,600 units earlier:
///
/// ```
/// use twimbor::{Block, Blocks, Refusal};
///
/// let packet = [
///     0x80, 102, 0, 18, 0, 0, 0x32, 0x00, 0x00, 0x52, 0x34, 0xA8, // timestamp 12800
///     0x80 | 100, 0x19, 0x00, 0x04, // offset 1600, length 4
///     101, // the last header
///     1, 0x80 | 20, 0x06, 0xE0, // key 1, ended, duration 1760
///     0, 20, 0, 160, 0x02, 0xB9, 0x04, 0xB9, // 697 and 1209 Hz
/// ];
/// let mut blocks = Blocks::of(&packet)?;
/// let event = Block { payload_type: 100, offset: 1600, primary: false, data: &packet[17..21] };
/// assert_eq!(blocks.next(), Some(event));
/// assert_eq!(event.timestamp(12_800), 11_200);
/// let tone = Block { payload_type: 101, offset: 0, primary: true, data: &packet[21..] };
/// assert_eq!(blocks.next(), Some(tone));
/// assert_eq!(blocks.next(), None);
/// # Ok::<(), Refusal>(())
/// ```
#[derive(Clone, Debug)]
pub struct Blocks<'a> {
    packet: &'a [u8],
    cursor: sys::Cursor,
}

impl<'a> Blocks<'a> {
    /// The blocks of a packet. Its payload type is not looked at: that it is redundant is for the
    /// caller to know. Refusals: 1 to 4, 18, 19.
    ///
    /// ```
    /// use twimbor::{Blocks, Refusal};
    ///
    /// let no_payload = [0x80, 96, 0, 0, 0, 0, 0, 0, 0, 0, 0, 0];
    /// assert_eq!(Blocks::of(&no_payload).err(), Some(Refusal::HeadersRunOut));
    /// ```
    pub fn of(packet: &'a [u8]) -> Result<Blocks<'a>, Refusal> {
        let started = sys::walk_start(packet);
        unless_refused(started.refusal, Blocks { packet, cursor: started.cursor })
    }
}

impl<'a> Iterator for Blocks<'a> {
    type Item = Block<'a>;

    fn next(&mut self) -> Option<Block<'a>> {
        let step = sys::header_step(self.packet, self.cursor);
        if !step.found {
            return None;
        }
        let start = self.cursor.body;
        let end = if step.primary { self.cursor.end } else { start + usize::from(step.length) };
        self.cursor = sys::Cursor { header: step.next, body: end, end: self.cursor.end };
        Some(Block {
            payload_type: step.payload_type,
            offset: step.offset,
            primary: step.primary,
            data: &self.packet[start..end],
        })
    }
}

// Where there is no block, the cursor stays.
impl FusedIterator for Blocks<'_> {}
