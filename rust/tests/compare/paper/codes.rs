//! Request 6: sets of codes, and their text.

use std::fmt;

/// For each code, 0 to 255, whether it is in the set.
#[derive(Clone, Copy, PartialEq, Eq)]
pub struct Codes(pub [bool; 256]);

pub const EMPTY: Codes = Codes([false; 256]);

impl Codes {
    pub fn of(members: impl IntoIterator<Item = u8>) -> Codes {
        let mut codes = EMPTY;
        members.into_iter().for_each(|code| codes.0[usize::from(code)] = true);
        codes
    }

    /// A number of any size; none above 255 is in a set.
    pub fn contains(&self, code: u32) -> bool {
        self.0.get(code as usize) == Some(&true)
    }

    pub fn members(&self) -> impl DoubleEndedIterator<Item = u8> {
        (0..=255).filter(|&code| self.0[usize::from(code)])
    }

    pub fn lowest(&self) -> Result<u8, u8> {
        self.members().next().ok_or(20)
    }
}

impl fmt::Debug for Codes {
    fn fmt(&self, f: &mut fmt::Formatter) -> fmt::Result {
        f.debug_set().entries(self.members()).finish()
    }
}

/// "A number up to 255 without leading zeros": the text that the number has itself.
fn number(text: &[u8]) -> Result<u8, u8> {
    let number: u8 = std::str::from_utf8(text).ok().and_then(|text| text.parse().ok()).ok_or(20)?;
    if number.to_string().as_bytes() == text { Ok(number) } else { Err(20) }
}

/// "One or more items are joined by commas": a number, or "a-b with a below b".
pub fn read(text: &[u8]) -> Result<Codes, u8> {
    let mut codes = EMPTY;
    for item in text.split(|&byte| byte == b',') {
        let numbers =
            item.split(|&byte| byte == b'-').map(number).collect::<Result<Vec<_>, _>>()?;
        let (a, b) = match numbers[..] {
            [a] => (a, a),
            [a, b] if a < b => (a, b),
            _ => return Err(20),
        };
        codes.0[a.into()..=b.into()].fill(true);
    }
    Ok(codes)
}

/// "The rising list with the longest ranges": from each code that has none before it to the first
/// that has none after it.
pub fn text(codes: &Codes) -> String {
    let first = |&code: &u8| code == 0 || !codes.contains(u32::from(code) - 1);
    let last = |&code: &u8| !codes.contains(u32::from(code) + 1);
    let ranges = codes.members().filter(first).zip(codes.members().filter(last));
    let items = ranges.map(|(a, b)| if a == b { a.to_string() } else { format!("{a}-{b}") });
    items.collect::<Vec<_>>().join(",")
}

/// Writes the text, and answers how many bytes it has.
pub fn write(codes: &Codes, output: &mut [u8]) -> Result<usize, u8> {
    codes.lowest()?;
    let text = text(codes);
    output.get_mut(..text.len()).ok_or(14)?.copy_from_slice(text.as_bytes());
    Ok(text.len())
}
