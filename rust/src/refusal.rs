use core::error::Error;
use core::fmt;

/// Why a call refused what it was given. It gives the first reason that holds: [`InvalidTable`]
/// before all others, then by rising number, but [`Packed`] at the place of [`NotOneReport`], and
/// for redundant packets [`HeadersRunOut`], [`BlocksTooLong`] and [`ListTooSmall`], in this order,
/// right after [`OtherSsrc`], and [`NoCodes`] before [`OutputTooSmall`].
///
/// [`InvalidTable`]: Refusal::InvalidTable
/// [`Packed`]: Refusal::Packed
/// [`NotOneReport`]: Refusal::NotOneReport
/// [`HeadersRunOut`]: Refusal::HeadersRunOut
/// [`BlocksTooLong`]: Refusal::BlocksTooLong
/// [`ListTooSmall`]: Refusal::ListTooSmall
/// [`OtherSsrc`]: Refusal::OtherSsrc
/// [`NoCodes`]: Refusal::NoCodes
/// [`OutputTooSmall`]: Refusal::OutputTooSmall
///
/// ```
/// use twimbor::{Codes, Refusal, Report};
///
/// let refusal = Report::read(Codes::KEYS, &[0x80; 11]).unwrap_err();
/// assert_eq!(refusal, Refusal::TooShort);
/// assert_eq!(refusal.number(), 1);
/// assert_eq!(refusal.to_string(), "the packet has fewer than 12 bytes");
/// ```
///
/// They are ordered by number.
#[repr(u8)]
#[derive(Clone, Copy, Debug, PartialEq, Eq, PartialOrd, Ord, Hash)]
#[non_exhaustive]
pub enum Refusal {
    /// The packet has fewer than 12 bytes.
    TooShort = 1,
    /// The version is not 2.
    WrongVersion = 2,
    /// The CSRC list or the extension runs past the end.
    HeaderPastEnd = 3,
    /// P is set, and the pad count is 0 or above the bytes after header, CSRC list and extension.
    BadPadding = 4,
    /// Not the table's payload type, or neither of its two.
    OtherPayloadType = 5,
    /// Not the table's SSRC.
    OtherSsrc = 6,
    /// The payload is not 4 bytes, and not packed.
    NotOneReport = 7,
    /// The code is not in the set.
    CodeNotInSet = 8,
    /// The duration is 0.
    NoDuration = 9,
    /// The offset is 2^31 or more.
    OffsetTooLarge = 10,
    /// The table holds 128 segments, and this pair of offset and code is none of them.
    TableFull = 11,
    /// A number given to open, write or plan is outside its range, a code outside the set, the set
    /// is empty, or two payload types are equal.
    OutOfRange = 12,
    /// The report or event number is 0 or above the count.
    NoSuchNumber = 13,
    /// The output has fewer bytes than the packet or the text.
    OutputTooSmall = 14,
    /// The lent list has fewer records than there are events, or entries than blocks of the event's
    /// type.
    ListTooSmall = 15,
    /// The table fails a test; see [`Table::is_valid`](crate::Table::is_valid).
    InvalidTable = 16,
    /// The payload has 8, 12 or more bytes in whole fours: several reports in one packet.
    Packed = 17,
    /// A redundant packet's block headers run past the payload's end.
    HeadersRunOut = 18,
    /// A redundant packet's block lengths come to more than its data.
    BlocksTooLong = 19,
    /// A text is no list of codes; or an empty set is written or asked its lowest code.
    NoCodes = 20,
    /// A refusal that this version does not know: the static library is newer than the crate.
    Unknown = 255,
}

use Refusal::*;

impl Refusal {
    /// All refusals that this version knows, by number.
    pub const ALL: [Refusal; 20] = [
        TooShort,
        WrongVersion,
        HeaderPastEnd,
        BadPadding,
        OtherPayloadType,
        OtherSsrc,
        NotOneReport,
        CodeNotInSet,
        NoDuration,
        OffsetTooLarge,
        TableFull,
        OutOfRange,
        NoSuchNumber,
        OutputTooSmall,
        ListTooSmall,
        InvalidTable,
        Packed,
        HeadersRunOut,
        BlocksTooLong,
        NoCodes,
    ];

    /// The refusal's number, 1 to 20; 255 for [`Unknown`](Refusal::Unknown).
    pub fn number(self) -> u8 {
        self as u8
    }
}

impl TryFrom<u8> for Refusal {
    type Error = UnknownRefusal;

    /// The refusal with this number, 1 to 20.
    fn try_from(number: u8) -> Result<Refusal, UnknownRefusal> {
        let place = usize::from(number).wrapping_sub(1);
        Refusal::ALL.get(place).copied().ok_or(UnknownRefusal(number))
    }
}

/// A number that is no refusal's, as far as this version knows.
///
/// ```
/// use twimbor::{Refusal, UnknownRefusal};
///
/// assert_eq!(Refusal::try_from(11), Ok(Refusal::TableFull));
/// assert_eq!(Refusal::try_from(21), Err(UnknownRefusal(21)));
/// ```
#[derive(Clone, Copy, Debug, PartialEq, Eq, Hash)]
pub struct UnknownRefusal(pub u8);

impl fmt::Display for UnknownRefusal {
    fn fmt(&self, f: &mut fmt::Formatter) -> fmt::Result {
        write!(f, "this version knows no refusal with the number {}", self.0)
    }
}

impl Error for UnknownRefusal {}

impl fmt::Display for Refusal {
    fn fmt(&self, f: &mut fmt::Formatter) -> fmt::Result {
        f.write_str(match self {
            TooShort => "the packet has fewer than 12 bytes",
            WrongVersion => "the packet's RTP version is not 2",
            HeaderPastEnd => "the packet's CSRC list or extension runs past its end",
            BadPadding => "the packet's pad count is 0 or above the bytes after its header",
            OtherPayloadType => "the packet's payload type is not the table's",
            OtherSsrc => "the packet's SSRC is not the table's",
            NotOneReport => "the packet's payload is not 4 bytes, one report",
            CodeNotInSet => "the report's event code is not in the set",
            NoDuration => "the report's duration is 0",
            OffsetTooLarge => "the report's timestamp is 2^31 or more after the table's origin",
            TableFull => "the table holds 128 segments, and the report's is none of them",
            OutOfRange => {
                "a number given is outside its range, a code outside the set, or the set is empty"
            }
            NoSuchNumber => "the report or event number is 0 or above the count",
            OutputTooSmall => "the output has fewer bytes than the packet or the text",
            ListTooSmall => {
                "the lent list has fewer records than there are events, or entries than blocks"
            }
            InvalidTable => {
                "the table has over 128 segments, segments out of order, or a number outside its \
                 range or the set"
            }
            Packed => "the packet's payload is several reports packed together",
            HeadersRunOut => "the redundant packet's block headers run past its end",
            BlocksTooLong => "the redundant packet's block lengths come to more than its data",
            NoCodes => "the text is no list of event codes, or the set has none",
            Unknown => "a refusal that this version does not know",
        })
    }
}

impl Error for Refusal {}

/// The value of a call whose answer has this refusal number, 0 for none.
pub(crate) fn unless_refused<T>(number: impl Into<u64>, value: T) -> Result<T, Refusal> {
    let number = number.into();
    if number == 0 {
        return Ok(value);
    }
    let known = u8::try_from(number).ok().and_then(|number| Refusal::try_from(number).ok());
    Err(known.unwrap_or(Unknown))
}

#[test]
fn an_unknown_number_is_refused() {
    assert_eq!(unless_refused(0u8, ()), Ok(()));
    assert_eq!(unless_refused(20u8, ()), Err(NoCodes));
    for number in [21, 255, 256, 257, u64::MAX] {
        assert_eq!(unless_refused(number, ()), Err(Unknown));
    }
}
