#[cfg(feature = "alloc")]
use alloc::{vec, vec::Vec};

use crate::refusal::{Refusal, unless_refused};
use crate::{Codes, Event, sys};

/// How many segments a table holds at most, and so how many events it can list.
pub const PLACES: usize = 128;

/// A segment of a table: what was heard of one offset and code.
#[repr(C)]
#[derive(Clone, Copy, Debug, Default, PartialEq, Eq, Hash)]
pub struct Segment {
    /// (timestamp - origin) modulo 2^32, below 2^31.
    pub offset: u32,
    /// The key, one of the table's set.
    pub code: u8,
    /// The largest heard, in timestamp units; at least 1.
    pub duration: u16,
    /// The smallest number heard, the loudest; 0 to 63.
    pub volume: u8,
    /// The largest number heard; from `volume` to 63.
    pub quietest: u8,
    /// E was heard.
    pub ended: bool,
    /// M was heard.
    pub marked: bool,
}

/// What a table was opened with, and how many segments it holds.
#[repr(C)]
#[derive(Clone, Copy, Debug, Default, PartialEq, Eq, Hash)]
pub struct Head {
    /// The event's payload type, 0 to 127.
    pub payload_type: u8,
    /// 0 if opened for one payload type; else for redundant packets too.
    pub both_types: u8,
    /// Then their payload type, 0 to 127 and another than the event's; else nothing looks at it.
    pub redundant_type: u8,
    /// The source that is received.
    pub ssrc: u32,
    /// The timestamp that offsets are counted from.
    pub origin: u32,
    /// The codes that are taken.
    pub codes: Codes,
    /// How many segments are held, at most 128.
    pub count: usize,
}

/// The receiving table.
///
/// [`Table::open`] makes an empty one, and [`Table::receive`] leaves a valid one valid. To store a
/// table, keep its [`segments`](Table::segments); [`Table::from_segments`] makes it again.
/// [`Table::open_redundant`] makes one for redundant packets too.
///
/// ```
/// use twimbor::{Codes, Refusal, Segment, Table};
///
/// let key = Segment { offset: 1000, code: 5, duration: 400, ..Segment::default() };
/// let table = Table::from_segments(Codes::KEYS, 101, 0x1122_3344, 0, &[key])?;
/// assert!(table.segments().eq([key]));
/// let other = Segment { code: 16, ..key };
/// let refused = Table::from_segments(Codes::KEYS, 101, 0x1122_3344, 0, &[other]);
/// assert_eq!(refused, Err(Refusal::InvalidTable));
/// # Ok::<(), Refusal>(())
/// ```
///
/// The fields are public, for those who store the table as it is. Every call tests the table that
/// it is given, and answers 16 if it fails. Two tables are equal if all their fields are, the
/// places above the number held included.
#[repr(C)]
#[derive(Clone, Debug, PartialEq, Eq)]
pub struct Table {
    /// What the table was opened with, and how many segments it holds.
    pub head: Head,
    /// The first `head.count` places hold the segments' offsets and codes, and rise: the code in
    /// the lowest 8 bits, the offset above. What stands in the others plays no part.
    pub keys: [u64; PLACES],
    /// What was heard of the same segments: the duration in the lowest 16 bits, then E, then M, the
    /// quietest in 6 bits, the volume above.
    pub heard: [u32; PLACES],
}

/// What [`Table::receive`] says of a packet that it took, and an [`Entry`] of a block.
#[derive(Clone, Copy, Debug, PartialEq, Eq, Hash)]
pub enum Taken {
    /// The table did not hold the report's segment before.
    New,
    /// The table held the report's segment already.
    Known,
}

/// What [`Table::receive_redundant`] says of one block.
///
/// ```
/// use twimbor::{Entry, Refusal, Taken};
///
/// assert_eq!(Entry::from(7 << 16 | 11).answer(), Err(Refusal::TableFull));
/// assert_eq!(Entry::from(7 << 16 | 11).probes(), 7);
/// assert_eq!(Entry::from(256).answer(), Ok(Taken::New));
/// assert_eq!(Entry::default().answer(), Ok(Taken::Known));
/// ```
#[repr(transparent)]
#[derive(Clone, Copy, Debug, Default, PartialEq, Eq, Hash)]
pub struct Entry(u32);

impl Entry {
    /// Whether the block was taken, or why it was refused.
    pub fn answer(&self) -> Result<Taken, Refusal> {
        let taken = if self.0 >> 8 & 1 == 1 { Taken::New } else { Taken::Known };
        unless_refused(self.0 as u8, taken)
    }

    /// How many of the segments held were looked at to find the block's, as
    /// [`Table::receive_counting`] tells it.
    pub fn probes(&self) -> u32 {
        self.0 >> 16
    }

    /// The entry as C has it: the refusal's number or 0, 256 if the segment is new, and 65,536 for
    /// each segment looked at.
    pub fn number(&self) -> u32 {
        self.0
    }
}

impl From<u32> for Entry {
    fn from(number: u32) -> Entry {
        Entry(number)
    }
}

/// What [`Table::receive_capture`] says of the frames that it received.
#[derive(Clone, Copy, Debug, PartialEq, Eq, Hash)]
pub struct Captured {
    /// How many bytes the whole frames use. What comes after them, a frame cut short, is left.
    pub used: usize,
    /// How many packets were taken, their segments new or known.
    pub taken: usize,
    /// How many packets were refused. With those taken they are as many as the whole frames.
    pub refused: usize,
    /// How many of these were refused with 17.
    pub packed: usize,
}

impl Table {
    /// An empty table for one payload type and SSRC, and for the codes of a set. Refusal: 12, also
    /// if the set is empty.
    ///
    /// A report's offset is (its timestamp - `origin`) modulo 2^32, and one of 2^31 or more is refused
    /// with 10. So the origin is a timestamp that no report to be taken is earlier than, by however
    /// little: that of the stream's first packet, audio or event, or of the call's start. If the
    /// first packet to arrive may not be the first sent, take it some seconds earlier, modulo 2^32.
    /// From there the table takes 2^31 units, which are three days at 8000 a second.
    ///
    /// The payload type is a number of any type: a report's, a plan's and a head's go in as they are.
    ///
    /// ```
    /// use twimbor::{Codes, Refusal, Report, Table};
    ///
    /// let report = Report { payload_type: 101, ..Report::default() };
    /// let table = Table::open(Codes::KEYS, report.payload_type, report.ssrc, report.timestamp)?;
    /// let next = Table::open(table.codes(), table.head.payload_type, table.head.ssrc, 48_000)?;
    /// assert_eq!(next.head.payload_type, 101);
    /// assert_eq!(Table::open(Codes::KEYS, 128, 7, 0), Err(Refusal::OutOfRange));
    /// assert_eq!(Table::open(Codes::EMPTY, 101, 7, 0), Err(Refusal::OutOfRange));
    /// # Ok::<(), Refusal>(())
    /// ```
    pub fn open(
        codes: Codes,
        payload_type: impl TryInto<u32>,
        ssrc: u32,
        origin: u32,
    ) -> Result<Table, Refusal> {
        let payload_type = payload_type.try_into().map_err(|_| Refusal::OutOfRange)?;
        let opened = sys::open_table(codes, payload_type, ssrc, origin);
        unless_refused(opened.refusal, opened.table)
    }

    /// An empty table for the packets of one SSRC that are of the event's payload type or
    /// redundant. Refusal: 12, also if the set is empty or the two types are equal. They are numbers
    /// of any type. The origin is chosen as for [`Table::open`]; the blocks of a packet are up to
    /// 16,383 units earlier than the packet.
    ///
    /// ```
    /// use twimbor::{Codes, Refusal, Table};
    ///
    /// let table = Table::open_redundant(Codes::KEYS, 101, 96, 0x1122_3344, 5000)?;
    /// assert_eq!((table.head.payload_type, table.head.redundant_type), (101, 96));
    /// let equal = Table::open_redundant(Codes::KEYS, 101, 101, 0x1122_3344, 5000);
    /// assert_eq!(equal, Err(Refusal::OutOfRange));
    /// # Ok::<(), Refusal>(())
    /// ```
    pub fn open_redundant(
        codes: Codes,
        payload_type: impl TryInto<u32>,
        redundant_type: impl TryInto<u32>,
        ssrc: u32,
        origin: u32,
    ) -> Result<Table, Refusal> {
        let payload_type = payload_type.try_into().map_err(|_| Refusal::OutOfRange)?;
        let redundant_type = redundant_type.try_into().map_err(|_| Refusal::OutOfRange)?;
        let opened = sys::open_redundant_table(codes, payload_type, redundant_type, ssrc, origin);
        unless_refused(opened.refusal, opened.table)
    }

    /// A table for one payload type that holds these segments; for both, the head's two fields are
    /// set afterwards. Refusals: 12; 16 if it fails the tests of [`Table::is_valid`].
    pub fn from_segments(
        codes: Codes,
        payload_type: impl TryInto<u32>,
        ssrc: u32,
        origin: u32,
        segments: &[Segment],
    ) -> Result<Table, Refusal> {
        let mut table = Table::open(codes, payload_type, ssrc, origin)?;
        table.head.count = segments.len();
        for (place, segment) in segments.iter().take(PLACES).enumerate() {
            let numbers = sys::numbers_of_segment(*segment);
            (table.keys[place], table.heard[place]) = (numbers.key, numbers.heard);
        }
        if table.is_valid() { Ok(table) } else { Err(Refusal::InvalidTable) }
    }

    /// The codes that the table takes.
    pub fn codes(&self) -> Codes {
        self.head.codes
    }

    /// The segments held, by offset, then code. In a table that fails the tests, an offset too large
    /// for its field reads as the largest number of the field, which is outside the range too.
    pub fn segments(&self) -> impl ExactSizeIterator<Item = Segment> {
        let numbers = self.keys.iter().zip(&self.heard).take(self.head.count);
        numbers.map(|(&key, &heard)| sys::segment_of_numbers(key, heard))
    }

    /// Whether the table passes the tests of refusal 16: at most 128 segments, strictly rising by
    /// offset, then code; offsets below 2^31, codes of the table's set, which may be empty if nothing
    /// is held, durations at least 1, volumes 0 to 63, the quietest not below the loudest; payload
    /// type up to 127; in a table opened for both types the other one up to 127 too, and another.
    pub fn is_valid(&self) -> bool {
        sys::is_valid_columns(self.head, &self.keys, &self.heard)
    }

    /// Receives a packet of the event's payload type. Refusals: 16, then 1 to 11 with 17 at the
    /// place of 7; the table stays as it was.
    pub fn receive(&mut self, packet: &[u8]) -> Result<Taken, Refusal> {
        self.receive_counting(packet).0
    }

    /// The same as [`Table::receive`], and how many of the segments held were looked at to find the
    /// report's pair, by halving: at most 8. It is 0 under a refusal, but not under 11, which is
    /// found out by that search.
    pub fn receive_counting(&mut self, packet: &[u8]) -> (Result<Taken, Refusal>, usize) {
        let received = sys::receive_columns(self.head, &mut self.keys, &mut self.heard, packet);
        self.head.count = received.count;
        let taken = if received.is_new { Taken::New } else { Taken::Known };
        (unless_refused(received.refusal, taken), received.probes)
    }

    /// Receives a whole capture: the packets of a buffer's RFC 4571 frames, each as by
    /// [`Table::receive`], one after another. A last frame that the buffer's end cuts short is left.
    /// Refusal: 16; the table stays as it was.
    ///
    /// A capture that comes in pieces is received piece by piece, with what one call left put before
    /// the next piece; fewer than 65,537 bytes are ever left.
    ///
    /// ```
    /// use twimbor::{Codes, Refusal, Report, Table};
    ///
    /// let mut table = Table::open(Codes::KEYS, 101, 7, 0)?;
    /// let key = Report { payload_type: 101, ssrc: 7, code: 5, duration: 400, ..Report::default() };
    /// let mut frames = [0; 27]; // one frame of 2 + 16 bytes, and half of another
    /// frames[1] = 16;
    /// key.write(Codes::KEYS, &mut frames[2..18])?;
    /// frames.copy_within(..9, 18);
    /// let captured = table.receive_capture(&frames)?;
    /// assert_eq!((captured.taken, captured.refused, captured.used), (1, 0, 18));
    /// # Ok::<(), Refusal>(())
    /// ```
    pub fn receive_capture(&mut self, frames: &[u8]) -> Result<Captured, Refusal> {
        let got = sys::receive_capture_columns(self.head, &mut self.keys, &mut self.heard, frames);
        self.head.count = got.count;
        let captured =
            Captured { used: got.used, taken: got.taken, refused: got.refused, packed: got.packed };
        unless_refused(got.refusal, captured)
    }

    /// Receives a packet that may be redundant (RFC 2198), into a table of either opening, and
    /// answers how many entries were written: one for each block of the event's type, in packet
    /// order. A packet of the event's type itself is one block. The other entries stay.
    ///
    /// Each block is received at its own timestamp, (the packet's - its offset) modulo 2^32, on the
    /// table that the block before it left. Only the last, the primary, can count as marked. Blocks
    /// of other types are passed over. A block refused with 17, 7, 8, 9, 10 or 11 changes its entry
    /// only.
    ///
    /// Refusals of the whole packet: 16, 1 to 6, 18, 19, 15; then table and entries stay. A quarter
    /// as many entries as the packet has bytes are always enough.
    ///
    /// ```
    /// use twimbor::{Codes, Entry, OlderReport, REDUNDANT_BYTES, Refusal, Report, Table, Taken};
    ///
    /// let key = Report { payload_type: 101, ssrc: 7, code: 5, duration: 400, ..Report::default() };
    /// let next = Report { timestamp: 1000, code: 6, ..key };
    /// let mut packet = [0; REDUNDANT_BYTES];
    /// let (codes, older) = (Codes::KEYS, OlderReport::from(key));
    /// let bytes = next.write_redundant(codes, 96, &[older], &mut packet)?;
    ///
    /// let mut table = Table::open_redundant(codes, 101, 96, 7, 0)?;
    /// let mut entries = [Entry::default(); 4];
    /// assert_eq!(table.receive_redundant(&packet[..bytes], &mut entries), Ok(2));
    /// assert_eq!([entries[0].answer(), entries[1].answer()], [Ok(Taken::New); 2]);
    /// # #[cfg(feature = "alloc")]
    /// assert_eq!(table.events()?.iter().map(|event| event.key()).collect::<String>(), "56");
    /// # Ok::<(), Refusal>(())
    /// ```
    pub fn receive_redundant(
        &mut self,
        packet: &[u8],
        entries: &mut [Entry],
    ) -> Result<usize, Refusal> {
        let (keys, heard) = (&mut self.keys, &mut self.heard);
        let got = sys::receive_redundant_columns(self.head, keys, heard, packet, entries);
        self.head.count = got.count;
        unless_refused(got.refusal, got.blocks)
    }

    /// All events, by start, then code. Refusal: 16. Needs the feature `alloc`.
    #[cfg(feature = "alloc")]
    pub fn events(&self) -> Result<Vec<Event>, Refusal> {
        let mut list = vec![Event::default(); PLACES];
        let events = self.list_into(&mut list)?;
        list.truncate(events);
        Ok(list)
    }

    /// Writes the events into the first records of a lent list, and answers how many; the other
    /// records stay. Refusals: 16, 15; then all records stay.
    pub fn list_into(&self, list: &mut [Event]) -> Result<usize, Refusal> {
        let listed = sys::list_columns(self.head, &self.keys, &self.heard, list);
        unless_refused(listed.refusal, listed.events)
    }

    /// The event at number k, counted from 1. Refusals: 16, 13.
    pub fn event_at(&self, k: u32) -> Result<Event, Refusal> {
        let result = sys::event_at_columns(self.head, &self.keys, &self.heard, k);
        unless_refused(result.refusal, result.event)
    }
}
