use core::ops::Range;

use crate::refusal::{Refusal, unless_refused};
use crate::{Codes, PACKET_BYTES, sys};

/// How many timestamp units a planned event has at most: 16 segments of 65,535.
pub const LONGEST_EVENT: u32 = 16 * 65_535;

/// What a sender plans for one event.
///
/// The event is cut into segments of one size, the last holding the rest. Each segment is reported
/// once every period, and three times at its end.
#[repr(C)]
#[derive(Clone, Copy, Debug, Default, PartialEq, Eq, Hash)]
pub struct Plan {
    /// 0 to 127.
    pub payload_type: u32,
    /// The source.
    pub ssrc: u32,
    /// The first sequence number.
    pub sequence: u16,
    /// The first timestamp.
    pub start: u32,
    /// The key, one of the set's codes.
    pub code: u32,
    /// 0 to 63; a larger number is less loud.
    pub volume: u32,
    /// 1 timestamp unit to 16 segment sizes.
    pub length: u32,
    /// 1 to 65,535 timestamp units between reports.
    pub period: u32,
    /// 1 to 65,535 timestamp units; below 65,535 for redundant packets (RFC 4733, 2.5.1.3.1).
    pub segment_size: u32,
}

impl Plan {
    /// How many reports the plan has. Refusal: 12.
    pub fn report_count(&self, codes: Codes) -> Result<u32, Refusal> {
        let result = sys::report_count(codes, *self);
        unless_refused(result.refusal, result.reports)
    }

    /// Writes report k, counted from 1, at the start of the output; the bytes after it stay.
    /// Refusals: 12, 13, 14; then all bytes stay.
    pub fn write_report(&self, codes: Codes, k: u32, output: &mut [u8]) -> Result<(), Refusal> {
        unless_refused(sys::write_report(codes, *self, k, output), ())
    }

    /// The packets of all reports, in order. Refusal: 12.
    ///
    /// ```
    /// use twimbor::{Codes, Plan, Refusal, Report};
    ///
    /// let plan = Plan { length: 401, period: 400, segment_size: 65535, ..Plan::default() };
    /// let packets = plan.packets(Codes::KEYS)?;
    /// assert_eq!(packets.len(), 4);
    /// let reports: Vec<_> = packets.flat_map(|packet| Report::read(Codes::KEYS, &packet)).collect();
    /// assert_eq!(reports.iter().map(|r| r.duration).collect::<Vec<_>>(), [400, 401, 401, 401]);
    /// assert_eq!(reports.iter().map(|r| r.ended).collect::<Vec<_>>(), [false, false, true, true]);
    /// # Ok::<(), Refusal>(())
    /// ```
    pub fn packets(&self, codes: Codes) -> Result<Packets, Refusal> {
        let numbers = 1..self.report_count(codes)? + 1;
        Ok(Packets { codes, plan: *self, numbers })
    }
}

/// The packets of a plan, made by [`Plan::packets`].
#[derive(Clone, Debug)]
pub struct Packets {
    codes: Codes,
    plan: Plan,
    numbers: Range<u32>,
}

impl Iterator for Packets {
    type Item = [u8; PACKET_BYTES];

    fn next(&mut self) -> Option<[u8; PACKET_BYTES]> {
        let k = self.numbers.next()?;
        let mut packet = [0; PACKET_BYTES];
        // Never refused: the plan was in range when its reports were counted, and k is one of them.
        self.plan.write_report(self.codes, k, &mut packet).ok()?;
        Some(packet)
    }

    fn size_hint(&self) -> (usize, Option<usize>) {
        self.numbers.size_hint()
    }
}

impl ExactSizeIterator for Packets {}
