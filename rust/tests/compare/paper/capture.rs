//! A whole capture in one call. The form of its frames is that of "The listing program".

use super::table::{Table, is_valid, receive};

/// What is answered to the packets of a capture, in their order, and how many bytes were used.
#[derive(Clone, Debug, Default, PartialEq, Eq)]
pub struct Answers {
    pub used: usize,
    /// For each packet the refusal's number, 0 if it was taken.
    pub numbers: Vec<u8>,
}

impl Answers {
    pub fn taken(&self) -> usize {
        self.numbers.iter().filter(|&&number| number == 0).count()
    }

    pub fn refused(&self) -> usize {
        self.numbers.iter().filter(|&&number| number != 0).count()
    }

    pub fn packed(&self) -> usize {
        self.numbers.iter().filter(|&&number| number == 17).count()
    }
}

/// The packets of the whole frames, each "a 2-byte length, then that many bytes", and what is left:
/// a last frame or length cut short, or nothing.
pub fn packets(capture: &[u8]) -> (Vec<&[u8]>, &[u8]) {
    let (mut packets, mut left) = (Vec::new(), capture);
    while let Some((&length, rest)) = left.split_first_chunk() {
        let Some(frame) = rest.split_at_checked(u16::from_be_bytes(length).into()) else { break };
        packets.push(frame.0);
        left = frame.1;
    }
    (packets, left)
}

/// Gives the receiver the packets one by one. Refusal 16 is one of the whole call.
pub fn receive_capture(table: &mut Table, capture: &[u8]) -> Result<Answers, u8> {
    if !is_valid(table) {
        return Err(16);
    }
    let (packets, left) = packets(capture);
    let numbers = packets.into_iter().map(|packet| match receive(table, packet) {
        Ok(_) => 0,
        Err((number, _)) => number,
    });
    Ok(Answers { numbers: numbers.collect(), used: capture.len() - left.len() })
}
