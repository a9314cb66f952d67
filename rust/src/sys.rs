//! The archive's calls, safe to call, with the answers as C gets them. The crate's own types say the
//! same with `Result` and [`Refusal`](crate::Refusal).
//!
//! Each call answers the refusal's number, 0 if nothing is refused. Under a refusal nothing lent
//! changes, and the values answered are zeros, but for the count of [`Received`], [`Captured`] and
//! [`BlocksReceived`], and the probes under 11.

use crate::{Codes, Entry, Event, Head, OlderReport, PLACES, Plan, Report, Segment, Table};

/// What [`read_codes`] answers.
#[repr(C)]
#[derive(Clone, Copy, Debug, PartialEq, Eq)]
pub struct CodesResult {
    /// The set.
    pub codes: Codes,
    /// The refusal's number, 20, or 0.
    pub refusal: u8,
}

/// What [`write_codes`] answers.
#[repr(C)]
#[derive(Clone, Copy, Debug, PartialEq, Eq)]
pub struct TextResult {
    /// How many bytes were written.
    pub bytes: usize,
    /// The refusal's number, or 0.
    pub refusal: u8,
}

/// What [`codes_lowest`] answers.
#[repr(C)]
#[derive(Clone, Copy, Debug, PartialEq, Eq)]
pub struct LowestResult {
    /// The lowest code.
    pub code: u32,
    /// The refusal's number, 20, or 0.
    pub refusal: u8,
}

/// What [`read`] answers.
#[repr(C)]
#[derive(Clone, Copy, Debug, PartialEq, Eq)]
pub struct ReadResult {
    /// The report that the packet carries.
    pub report: Report,
    /// The refusal's number, or 0.
    pub refusal: u8,
}

/// What [`report_count`] answers.
#[repr(C)]
#[derive(Clone, Copy, Debug, PartialEq, Eq)]
pub struct CountResult {
    /// How many reports the plan has.
    pub reports: u32,
    /// The refusal's number, or 0.
    pub refusal: u8,
}

/// Where a walk over the blocks of a redundant packet stands.
#[repr(C)]
#[derive(Clone, Copy, Debug, Default, PartialEq, Eq)]
pub struct Cursor {
    /// The place of the next block's header.
    pub header: usize,
    /// The place of its data.
    pub body: usize,
    /// Where the payload ends.
    pub end: usize,
}

/// What [`walk_start`] answers.
#[repr(C)]
#[derive(Clone, Copy, Debug, PartialEq, Eq)]
pub struct WalkStarted {
    /// Where the first block stands.
    pub cursor: Cursor,
    /// The refusal's number, or 0.
    pub refusal: u8,
}

/// What [`header_step`] answers: the same step in fewer numbers.
#[repr(C)]
#[derive(Clone, Copy, Debug, Default, PartialEq, Eq)]
pub struct HeaderStepResult {
    /// The place of the next header; as it was if there is no block.
    pub next: usize,
    /// How many bytes an older block's data are, at most 1023; 0 for the primary, whose data go to
    /// the payload's end.
    pub length: u16,
    /// How much earlier than the packet's timestamp its own is; 0 for the primary.
    pub offset: u16,
    /// 0 to 127.
    pub payload_type: u8,
    /// It is the last block.
    pub primary: bool,
    /// False if there are no more blocks; all others but `next` are then zeros.
    pub found: bool,
}

/// What [`block_step`] answers.
#[repr(C)]
#[derive(Clone, Copy, Debug, Default, PartialEq, Eq)]
pub struct BlockStepResult {
    /// Where the walk goes on; as it was if there is no block.
    pub after: Cursor,
    /// The block's data are the packet's bytes from here.
    pub start: usize,
    /// Up to here.
    pub end: usize,
    /// How much earlier than the packet's timestamp its own is; 0 for the primary.
    pub offset: u16,
    /// 0 to 127.
    pub payload_type: u8,
    /// It is the last block.
    pub primary: bool,
    /// False if there are no more blocks; all others but `after` are then zeros.
    pub found: bool,
}

/// What [`open_table`] and [`open_redundant_table`] answer.
#[repr(C)]
#[derive(Clone, Debug, PartialEq, Eq)]
pub struct Opened {
    /// The empty table.
    pub table: Table,
    /// The refusal's number, or 0.
    pub refusal: u8,
}

/// What [`receive_columns`] answers.
#[repr(C)]
#[derive(Clone, Copy, Debug, PartialEq, Eq)]
pub struct Received {
    /// The refusal's number, or 0.
    pub refusal: u64,
    /// The packet was taken, and its segment is new.
    pub is_new: bool,
    /// The segments held after the call; under a refusal, as many as before.
    pub count: usize,
    /// The segments looked at to find the report's pair: at most 8; 0 if refused before that.
    pub probes: usize,
}

/// What [`receive_capture_columns`] answers.
#[repr(C)]
#[derive(Clone, Copy, Debug, PartialEq, Eq)]
pub struct Captured {
    /// The refusal's number, 16, or 0.
    pub refusal: u8,
    /// The segments held after the call; under 16, as many as before.
    pub count: usize,
    /// The bytes of the whole frames.
    pub used: usize,
    /// The packets taken.
    pub taken: usize,
    /// The packets refused.
    pub refused: usize,
    /// Those of them that were refused with 17.
    pub packed: usize,
}

/// What [`receive_redundant_columns`] answers.
#[repr(C)]
#[derive(Clone, Copy, Debug, PartialEq, Eq)]
pub struct BlocksReceived {
    /// The entries written; 0 if refused whole.
    pub blocks: usize,
    /// The segments held after the call; if refused whole, as many as before.
    pub count: usize,
    /// The number with which the packet is refused whole, or 0.
    pub refusal: u8,
}

/// What [`event_at_columns`] answers.
#[repr(C)]
#[derive(Clone, Copy, Debug, PartialEq, Eq)]
pub struct EventResult {
    /// The event.
    pub event: Event,
    /// The refusal's number, or 0.
    pub refusal: u8,
}

/// What [`list_columns`] answers.
#[repr(C)]
#[derive(Clone, Copy, Debug, PartialEq, Eq)]
pub struct Listed {
    /// The refusal's number, or 0.
    pub refusal: u8,
    /// How many records were written.
    pub events: usize,
}

/// What [`numbers_of_segment`] answers: a segment as a table keeps it, one number from each column.
#[repr(C)]
#[derive(Clone, Copy, Debug, PartialEq, Eq)]
pub struct SegmentNumbers {
    /// The offset and the code.
    pub key: u64,
    /// What was heard of them.
    pub heard: u32,
}

type Keys = [u64; PLACES];
type Heard = [u32; PLACES];

// The compiler cannot check these lines against the library. They follow include/twimbor.h, and the
// tests compare the structs' places with the header's and the calls' answers with documents 01 and
// 02.
unsafe extern "C" {
    fn twimbor_read_codes(text: *const u8, bytes: usize) -> CodesResult;
    fn twimbor_write_codes(codes: Codes, output: *mut u8, bytes: usize) -> TextResult;
    safe fn twimbor_codes_contain(codes: Codes, code: u32) -> bool;
    safe fn twimbor_codes_count(codes: Codes) -> u32;
    safe fn twimbor_codes_lowest(codes: Codes) -> LowestResult;
    fn twimbor_read(codes: Codes, packet: *const u8, bytes: usize) -> ReadResult;
    fn twimbor_write(codes: Codes, report: Report, output: *mut u8, bytes: usize) -> u8;
    fn twimbor_write_redundant(
        codes: Codes,
        report: Report,
        redundant_type: u32,
        count: u32,
        first: OlderReport,
        second: OlderReport,
        output: *mut u8,
        bytes: usize,
    ) -> u8;
    fn twimbor_walk_start(packet: *const u8, bytes: usize) -> WalkStarted;
    fn twimbor_block_step(packet: *const u8, bytes: usize, cursor: Cursor) -> BlockStepResult;
    fn twimbor_header_step(
        packet: *const u8,
        bytes: usize,
        header: usize,
        body: usize,
        end: usize,
    ) -> HeaderStepResult;
    safe fn twimbor_report_count(codes: Codes, plan: Plan) -> CountResult;
    fn twimbor_write_report(codes: Codes, plan: Plan, k: u32, output: *mut u8, bytes: usize) -> u8;
    safe fn twimbor_open_table(codes: Codes, payload_type: u32, ssrc: u32, origin: u32) -> Opened;
    safe fn twimbor_open_redundant_table(
        codes: Codes,
        payload_type: u32,
        redundant_type: u32,
        ssrc: u32,
        origin: u32,
    ) -> Opened;
    safe fn twimbor_is_valid_columns(head: Head, keys: &Keys, heard: &Heard) -> bool;
    fn twimbor_receive_columns(
        head: Head,
        keys: &mut Keys,
        heard: &mut Heard,
        packet: *const u8,
        bytes: usize,
    ) -> Received;
    fn twimbor_receive_capture_columns(
        head: Head,
        keys: &mut Keys,
        heard: &mut Heard,
        frames: *const u8,
        bytes: usize,
    ) -> Captured;
    fn twimbor_receive_redundant_columns(
        head: Head,
        keys: &mut Keys,
        heard: &mut Heard,
        packet: *const u8,
        bytes: usize,
        entries: *mut Entry,
        room: usize,
    ) -> BlocksReceived;
    safe fn twimbor_event_at_columns(head: Head, keys: &Keys, heard: &Heard, k: u32)
    -> EventResult;
    fn twimbor_list_columns(
        head: Head,
        keys: &Keys,
        heard: &Heard,
        list: *mut Event,
        records: usize,
    ) -> Listed;
    safe fn twimbor_segment_of_numbers(key: u64, heard: u32) -> Segment;
    safe fn twimbor_numbers_of_segment(segment: Segment) -> SegmentNumbers;
}

// A slice is never null, not even an empty one, points to as many elements as it says, and a lent
// one is written by nobody else: that is all that the header asks of a pointer with its number.

/// Reads the text of a set of codes.
pub fn read_codes(text: &[u8]) -> CodesResult {
    unsafe { twimbor_read_codes(text.as_ptr(), text.len()) }
}

/// Writes a set's text at the start of the output.
pub fn write_codes(codes: Codes, output: &mut [u8]) -> TextResult {
    unsafe { twimbor_write_codes(codes, output.as_mut_ptr(), output.len()) }
}

/// Whether a code is in the set.
pub fn codes_contain(codes: Codes, code: u32) -> bool {
    twimbor_codes_contain(codes, code)
}

/// How many codes the set has.
pub fn codes_count(codes: Codes) -> u32 {
    twimbor_codes_count(codes)
}

/// The lowest code of the set.
pub fn codes_lowest(codes: Codes) -> LowestResult {
    twimbor_codes_lowest(codes)
}

/// Reads a packet.
pub fn read(codes: Codes, packet: &[u8]) -> ReadResult {
    unsafe { twimbor_read(codes, packet.as_ptr(), packet.len()) }
}

/// Writes a report's 16 bytes at the start of the output, and answers the refusal's number.
pub fn write(codes: Codes, report: Report, output: &mut [u8]) -> u8 {
    unsafe { twimbor_write(codes, report, output.as_mut_ptr(), output.len()) }
}

/// Writes a redundant packet at the start of the output, and answers the refusal's number. So many
/// older reports count, in their order.
pub fn write_redundant(
    codes: Codes,
    report: Report,
    redundant_type: u32,
    count: u32,
    [first, second]: [OlderReport; 2],
    output: &mut [u8],
) -> u8 {
    let (start, bytes) = (output.as_mut_ptr(), output.len());
    unsafe {
        twimbor_write_redundant(codes, report, redundant_type, count, first, second, start, bytes)
    }
}

/// Starts a walk over the blocks of a redundant packet.
pub fn walk_start(packet: &[u8]) -> WalkStarted {
    unsafe { twimbor_walk_start(packet.as_ptr(), packet.len()) }
}

/// The block at a cursor, and the cursor after it. A cursor of any numbers is answered.
pub fn block_step(packet: &[u8], cursor: Cursor) -> BlockStepResult {
    unsafe { twimbor_block_step(packet.as_ptr(), packet.len(), cursor) }
}

/// The same in fewer numbers, which are handed over in registers.
pub fn header_step(packet: &[u8], Cursor { header, body, end }: Cursor) -> HeaderStepResult {
    unsafe { twimbor_header_step(packet.as_ptr(), packet.len(), header, body, end) }
}

/// How many reports a plan has.
pub fn report_count(codes: Codes, plan: Plan) -> CountResult {
    twimbor_report_count(codes, plan)
}

/// Writes report k of a plan at the start of the output, and answers the refusal's number.
pub fn write_report(codes: Codes, plan: Plan, k: u32, output: &mut [u8]) -> u8 {
    unsafe { twimbor_write_report(codes, plan, k, output.as_mut_ptr(), output.len()) }
}

/// An empty table.
pub fn open_table(codes: Codes, payload_type: u32, ssrc: u32, origin: u32) -> Opened {
    twimbor_open_table(codes, payload_type, ssrc, origin)
}

/// An empty table for packets of the event's payload type and for redundant ones.
pub fn open_redundant_table(
    codes: Codes,
    payload_type: u32,
    redundant_type: u32,
    ssrc: u32,
    origin: u32,
) -> Opened {
    twimbor_open_redundant_table(codes, payload_type, redundant_type, ssrc, origin)
}

/// Whether a table passes the tests of refusal 16.
pub fn is_valid_columns(head: Head, keys: &Keys, heard: &Heard) -> bool {
    twimbor_is_valid_columns(head, keys, heard)
}

/// Receives a packet.
pub fn receive_columns(head: Head, keys: &mut Keys, heard: &mut Heard, packet: &[u8]) -> Received {
    unsafe { twimbor_receive_columns(head, keys, heard, packet.as_ptr(), packet.len()) }
}

/// Receives the packets of a buffer's whole frames.
pub fn receive_capture_columns(
    head: Head,
    keys: &mut Keys,
    heard: &mut Heard,
    frames: &[u8],
) -> Captured {
    unsafe { twimbor_receive_capture_columns(head, keys, heard, frames.as_ptr(), frames.len()) }
}

/// Receives a packet that may be redundant, with what is answered to its blocks in lent entries.
pub fn receive_redundant_columns(
    head: Head,
    keys: &mut Keys,
    heard: &mut Heard,
    packet: &[u8],
    entries: &mut [Entry],
) -> BlocksReceived {
    let (start, room) = (entries.as_mut_ptr(), entries.len());
    let (first, bytes) = (packet.as_ptr(), packet.len());
    unsafe { twimbor_receive_redundant_columns(head, keys, heard, first, bytes, start, room) }
}

/// The event at number k.
pub fn event_at_columns(head: Head, keys: &Keys, heard: &Heard, k: u32) -> EventResult {
    twimbor_event_at_columns(head, keys, heard, k)
}

/// Writes the events into the first records of a lent list.
pub fn list_columns(head: Head, keys: &Keys, heard: &Heard, list: &mut [Event]) -> Listed {
    unsafe { twimbor_list_columns(head, keys, heard, list.as_mut_ptr(), list.len()) }
}

/// The segment that a table keeps in these two numbers. An offset too large for its field reads as
/// the largest number of the field.
pub fn segment_of_numbers(key: u64, heard: u32) -> Segment {
    twimbor_segment_of_numbers(key, heard)
}

/// The two numbers in which a table keeps a segment. A quietest above 63 has no room, and the volume
/// is then 255.
pub fn numbers_of_segment(segment: Segment) -> SegmentNumbers {
    twimbor_numbers_of_segment(segment)
}
