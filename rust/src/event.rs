/// One event: a key, from its first segment to its last.
#[repr(C)]
#[derive(Clone, Copy, Debug, Default, PartialEq, Eq, Hash)]
pub struct Event {
    /// The key: digits 0 to 9, then * 10, # 11, A to D 12 to 15; or another code of the table's set.
    pub code: u8,
    /// An offset: (timestamp - origin) modulo 2^32.
    pub start: u32,
    /// The sum of its segments' durations, in timestamp units.
    pub length: u32,
    /// The smallest number of its segments, the loudest.
    pub volume: u8,
    /// The largest number of its segments.
    pub quietest: u8,
    /// Its first segment was marked.
    pub began: bool,
    /// Its last segment has E.
    pub ended: bool,
}

impl Event {
    /// The key that the code stands for, `?` if it is none.
    ///
    /// ```
    /// use twimbor::Event;
    ///
    /// let keys = (0..=16).map(|code| Event { code, ..Event::default() }.key());
    /// assert_eq!(keys.collect::<String>(), "0123456789*#ABCD?");
    /// ```
    pub fn key(&self) -> char {
        b"0123456789*#ABCD".get(usize::from(self.code)).map_or('?', |&key| key.into())
    }
}
