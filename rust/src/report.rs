use core::array;

use crate::refusal::{Refusal, unless_refused};
use crate::{Codes, sys};

/// How many bytes are written of a report.
pub const PACKET_BYTES: usize = 16;

/// How many older reports a redundant packet is written with at most.
pub const OLDER_REPORTS: usize = 2;

/// How many bytes are written of a report and two older ones; 8 less for each that is not there.
pub const REDUNDANT_BYTES: usize = 33;

/// One report on the wire.
///
/// ```
/// use twimbor::{Codes, PACKET_BYTES, Refusal, Report};
///
/// let report = Report {
///     marker: true,
///     payload_type: 101,
///     sequence: 65535,
///     timestamp: 0xFFFF_FFF0,
///     ssrc: 0x1122_3344,
///     code: 5,
///     ended: false,
///     volume: 10,
///     duration: 400,
/// };
/// let mut packet = [0; PACKET_BYTES];
/// report.write(Codes::KEYS, &mut packet)?;
/// assert_eq!(Report::read(Codes::KEYS, &packet), Ok(report));
/// assert_eq!(Report::read(Codes::KEYS, &packet[..15]), Err(Refusal::NotOneReport));
/// assert_eq!(Report::read("66,70".parse()?, &packet), Err(Refusal::CodeNotInSet));
/// # Ok::<(), Refusal>(())
/// ```
#[repr(C)]
#[derive(Clone, Copy, Debug, Default, PartialEq, Eq, Hash)]
pub struct Report {
    /// M: the event's very first report.
    pub marker: bool,
    /// 0 to 127.
    pub payload_type: u32,
    /// The sequence number.
    pub sequence: u16,
    /// The start of the report's segment.
    pub timestamp: u32,
    /// The source.
    pub ssrc: u32,
    /// The key, one of the set's codes.
    pub code: u32,
    /// E: the event has ended.
    pub ended: bool,
    /// 0 to 63; a larger number is less loud.
    pub volume: u32,
    /// 1 to 65,535 timestamp units since the segment's start.
    pub duration: u32,
}

impl Report {
    /// The report that a packet carries, of a code in the set. Refusals: 1, 2, 3, 4, 17 or 7, 8, 9.
    pub fn read(codes: Codes, packet: &[u8]) -> Result<Report, Refusal> {
        let result = sys::read(codes, packet);
        unless_refused(result.refusal, result.report)
    }

    /// Writes the report's 16 bytes at the start of the output; the bytes after them stay.
    /// Refusals: 12, 14; then all bytes stay.
    pub fn write(&self, codes: Codes, output: &mut [u8]) -> Result<(), Refusal> {
        unless_refused(sys::write(codes, *self, output), ())
    }

    /// Writes a redundant packet (RFC 2198) at the start of the output, and answers how many bytes
    /// it has: 17, 25 or 33; the bytes after them stay. Up to two older reports stand before this
    /// one, in the order given. All blocks are of this report's payload type, and the marker is its
    /// own.
    ///
    /// Refusals: 12, also if the two payload types are equal, there are more than two older
    /// reports, or one's timestamp is more than 16,383 before this one's, modulo 2^32; 14; then all
    /// bytes stay.
    ///
    /// ```
    /// use twimbor::{Blocks, Codes, OlderReport, REDUNDANT_BYTES, Refusal, Report};
    ///
    /// let report = Report { timestamp: 1000, duration: 160, ..Report::default() };
    /// let older = OlderReport { timestamp: 200, code: 5, ..OlderReport::from(report) };
    /// let mut packet = [0; REDUNDANT_BYTES];
    /// assert_eq!(report.write_redundant(Codes::KEYS, 96, &[older], &mut packet), Ok(25));
    /// let blocks = Blocks::of(&packet[..25])?.map(|block| (block.offset, block.data));
    /// assert!(blocks.eq([(800, &[5, 0, 0, 160][..]), (0, &[0, 0, 0, 160])]));
    ///
    /// let too_old = OlderReport { timestamp: 1000_u32.wrapping_sub(16_384), ..older };
    /// let refused = report.write_redundant(Codes::KEYS, 96, &[too_old], &mut packet);
    /// assert_eq!(refused, Err(Refusal::OutOfRange));
    /// # Ok::<(), Refusal>(())
    /// ```
    pub fn write_redundant(
        &self,
        codes: Codes,
        redundant_type: impl TryInto<u32>,
        older: &[OlderReport],
        output: &mut [u8],
    ) -> Result<usize, Refusal> {
        let redundant_type = redundant_type.try_into().map_err(|_| Refusal::OutOfRange)?;
        let count = u32::try_from(older.len()).unwrap_or(u32::MAX);
        let counted = array::from_fn(|i| older.get(i).copied().unwrap_or_default());
        let refusal = sys::write_redundant(codes, *self, redundant_type, count, counted, output);
        unless_refused(refusal, REDUNDANT_BYTES - 8 * OLDER_REPORTS + 8 * older.len())
    }
}

/// An older report that a redundant packet repeats, as [`Report::write_redundant`] takes it. A
/// block has no marker, sequence number or SSRC of its own.
///
/// ```
/// use twimbor::{OlderReport, Report};
///
/// let older = OlderReport { timestamp: 1000, code: 5, ended: true, volume: 10, duration: 400 };
/// let OlderReport { timestamp, code, ended, volume, duration } = older;
/// let sent = Report { timestamp, code, ended, volume, duration, ..Report::default() };
/// assert_eq!(OlderReport::from(sent), older);
/// ```
#[repr(C)]
#[derive(Clone, Copy, Debug, Default, PartialEq, Eq, Hash)]
pub struct OlderReport {
    /// The start of the report's segment, at most 16,383 before the primary's, modulo 2^32.
    pub timestamp: u32,
    /// The key, one of the set's codes.
    pub code: u32,
    /// E: the event has ended.
    pub ended: bool,
    /// 0 to 63; a larger number is less loud.
    pub volume: u32,
    /// 1 to 65,535 timestamp units since the segment's start.
    pub duration: u32,
}

impl From<&Report> for OlderReport {
    fn from(report: &Report) -> OlderReport {
        let &Report { timestamp, code, ended, volume, duration, .. } = report;
        OlderReport { timestamp, code, ended, volume, duration }
    }
}

impl From<Report> for OlderReport {
    fn from(report: Report) -> OlderReport {
        OlderReport::from(&report)
    }
}
