use core::fmt;
use core::iter::FusedIterator;
use core::ops::{BitAnd, BitOr};
use core::str::{self, FromStr};

use crate::refusal::{Refusal, unless_refused};
use crate::sys;

/// How many bytes are written of a set of codes at most.
pub const CODES_BYTES: usize = 609;

/// A set of event codes, 0 to 255, as two ends of a call agree on it (RFC 4733, 2.4).
///
/// Its text is the list of codes that stands in a session description after `a=fmtp:` and the
/// payload type: one or more items with commas between them, each a number up to 255 without
/// leading zeros, or two of them with a dash between, the first below the second. Items may repeat,
/// overlap and come in any order; nothing else may stand in the text, no space and no newline.
///
/// ```
/// use twimbor::{Codes, Refusal};
///
/// let codes: Codes = "70,0-9,66,5-15".parse()?;
/// assert!(codes.contains(66) && !codes.contains(67));
/// assert_eq!((codes.len(), codes.lowest()), (18, Ok(0)));
/// assert_eq!(codes.to_string(), "0-15,66,70");
/// assert_eq!("0-15, 66".parse::<Codes>(), Err(Refusal::NoCodes));
///
/// assert_eq!(codes & Codes::KEYS, Codes::KEYS);
/// assert!(codes.iter().filter(|&code| code > 15).eq([66, 70]));
/// assert_eq!(Codes::from_iter([66, 70]) | Codes::KEYS, codes);
/// # Ok::<(), Refusal>(())
/// ```
#[repr(C)]
#[derive(Clone, Copy, Default, PartialEq, Eq, Hash)]
pub struct Codes {
    words: [u64; 4],
}

impl Codes {
    /// No codes at all. Nothing can be opened, written or planned with it.
    pub const EMPTY: Codes = Codes { words: [0; 4] };

    /// The codes 0 to 15: digits 0 to 9, * and #, A to D.
    pub const KEYS: Codes = Codes { words: [0xFFFF, 0, 0, 0] };

    /// The set of a text's codes, as [`FromStr`] reads it too. Refusal: 20.
    ///
    /// ```
    /// use twimbor::{Codes, Refusal};
    ///
    /// assert_eq!(Codes::read(b"0-15"), Ok(Codes::KEYS));
    /// assert_eq!(Codes::read(b""), Err(Refusal::NoCodes));
    /// ```
    pub fn read(text: &[u8]) -> Result<Codes, Refusal> {
        let result = sys::read_codes(text);
        unless_refused(result.refusal, result.codes)
    }

    /// Writes the set's text at the start of the output, and answers how many bytes it has, at most
    /// [`CODES_BYTES`]; the bytes after them stay. Each set has one text: rising, in the longest
    /// ranges. Refusals: 20 if the set is empty; 14; then all bytes stay.
    ///
    /// ```
    /// use twimbor::{CODES_BYTES, Codes, Refusal};
    ///
    /// let mut text = [0; CODES_BYTES];
    /// let bytes = Codes::KEYS.write_to(&mut text)?;
    /// assert_eq!(&text[..bytes], b"0-15");
    /// assert_eq!(Codes::KEYS.write_to(&mut text[..3]), Err(Refusal::OutputTooSmall));
    /// assert_eq!(Codes::EMPTY.write_to(&mut []), Err(Refusal::NoCodes));
    /// # Ok::<(), Refusal>(())
    /// ```
    pub fn write_to(&self, output: &mut [u8]) -> Result<usize, Refusal> {
        let result = sys::write_codes(*self, output);
        unless_refused(result.refusal, result.bytes)
    }

    /// Whether a code is in the set. It is a number of any type; none above 255 is.
    pub fn contains(&self, code: impl TryInto<u32>) -> bool {
        code.try_into().is_ok_and(|code| sys::codes_contain(*self, code))
    }

    /// How many codes the set has.
    pub fn len(&self) -> usize {
        sys::codes_count(*self) as usize
    }

    /// Whether the set has no codes.
    pub fn is_empty(&self) -> bool {
        *self == Codes::EMPTY
    }

    /// The lowest code. Refusal: 20 if the set is empty.
    pub fn lowest(&self) -> Result<u8, Refusal> {
        let result = sys::codes_lowest(*self);
        unless_refused(result.refusal, result.code as u8)
    }

    /// Puts a code into the set, and tells whether it was not there before.
    pub fn insert(&mut self, code: u8) -> bool {
        let is_new = !self.contains(code);
        self.words[usize::from(code / 64)] |= 1 << (code % 64);
        is_new
    }

    /// Takes a code out of the set, and tells whether it was there before.
    pub fn remove(&mut self, code: u8) -> bool {
        let was_there = self.contains(code);
        self.words[usize::from(code / 64)] &= !(1 << (code % 64));
        was_there
    }

    /// The codes, rising.
    pub fn iter(&self) -> CodesIter {
        CodesIter { left: *self }
    }
}

impl FromStr for Codes {
    type Err = Refusal;

    fn from_str(text: &str) -> Result<Codes, Refusal> {
        Codes::read(text.as_bytes())
    }
}

/// The text that [`Codes::write_to`] writes; of the empty set, which has none, nothing.
impl fmt::Display for Codes {
    fn fmt(&self, f: &mut fmt::Formatter) -> fmt::Result {
        let mut text = [0; CODES_BYTES];
        let bytes = self.write_to(&mut text).unwrap_or(0);
        f.pad(str::from_utf8(&text[..bytes]).map_err(|_| fmt::Error)?)
    }
}

impl fmt::Debug for Codes {
    fn fmt(&self, f: &mut fmt::Formatter) -> fmt::Result {
        write!(f, "Codes({self})")
    }
}

/// From a bit for each code: the lowest of the first word is code 0, the highest of the last 255.
impl From<[u64; 4]> for Codes {
    fn from(words: [u64; 4]) -> Codes {
        Codes { words }
    }
}

impl From<Codes> for [u64; 4] {
    fn from(codes: Codes) -> [u64; 4] {
        codes.words
    }
}

/// The codes of either set.
impl BitOr for Codes {
    type Output = Codes;

    fn bitor(self, other: Codes) -> Codes {
        Codes { words: core::array::from_fn(|i| self.words[i] | other.words[i]) }
    }
}

/// The codes of both sets.
impl BitAnd for Codes {
    type Output = Codes;

    fn bitand(self, other: Codes) -> Codes {
        Codes { words: core::array::from_fn(|i| self.words[i] & other.words[i]) }
    }
}

impl Extend<u8> for Codes {
    fn extend<I: IntoIterator<Item = u8>>(&mut self, codes: I) {
        for code in codes {
            self.insert(code);
        }
    }
}

impl FromIterator<u8> for Codes {
    fn from_iter<I: IntoIterator<Item = u8>>(codes: I) -> Codes {
        let mut set = Codes::EMPTY;
        set.extend(codes);
        set
    }
}

impl IntoIterator for Codes {
    type Item = u8;
    type IntoIter = CodesIter;

    fn into_iter(self) -> CodesIter {
        self.iter()
    }
}

impl IntoIterator for &Codes {
    type Item = u8;
    type IntoIter = CodesIter;

    fn into_iter(self) -> CodesIter {
        self.iter()
    }
}

/// The codes of a set, rising, made by [`Codes::iter`].
#[derive(Clone, Debug)]
pub struct CodesIter {
    left: Codes,
}

impl Iterator for CodesIter {
    type Item = u8;

    fn next(&mut self) -> Option<u8> {
        let lowest = self.left.lowest().ok()?;
        self.left.remove(lowest);
        Some(lowest)
    }

    fn size_hint(&self) -> (usize, Option<usize>) {
        (self.left.len(), Some(self.left.len()))
    }
}

impl DoubleEndedIterator for CodesIter {
    fn next_back(&mut self) -> Option<u8> {
        let word = self.left.words.iter().rposition(|&word| word != 0)?;
        let highest = (64 * word) as u8 + self.left.words[word].ilog2() as u8;
        self.left.remove(highest);
        Some(highest)
    }
}

impl ExactSizeIterator for CodesIter {}

impl FusedIterator for CodesIter {}
