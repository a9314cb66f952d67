//! "The packet": reading and writing.

use super::codes::Codes;
use twimbor::Report;

/// What a packet says up to its payload.
pub struct Header<'a> {
    pub marker: bool,
    pub payload_type: u32,
    pub sequence: u16,
    pub timestamp: u32,
    pub ssrc: u32,
    pub payload: &'a [u8],
}

/// Refusals 1 to 4.
pub fn header(packet: &[u8]) -> Result<Header<'_>, u8> {
    let Some((&fixed, mut rest)) = packet.split_first_chunk::<12>() else {
        return Err(1);
    };
    let [flags, mark_and_type, q0, q1, t0, t1, t2, t3, s0, s1, s2, s3] = fixed;
    if flags >> 6 != 2 {
        return Err(2);
    }
    let csrcs = usize::from(flags & 0b1111);
    rest = rest.get(4 * csrcs..).ok_or(3)?;
    if flags & 0b1_0000 != 0 {
        let (&[_, _, w0, w1], data) = rest.split_first_chunk().ok_or(3)?;
        let words = u16::from_be_bytes([w0, w1]);
        rest = data.get(4 * usize::from(words)..).ok_or(3)?;
    }
    if flags & 0b10_0000 != 0 {
        let pad_count = usize::from(packet[packet.len() - 1]);
        if pad_count == 0 || pad_count > rest.len() {
            return Err(4);
        }
        rest = &rest[..rest.len() - pad_count];
    }
    Ok(Header {
        marker: mark_and_type >= 128,
        payload_type: u32::from(mark_and_type % 128),
        sequence: u16::from_be_bytes([q0, q1]),
        timestamp: u32::from_be_bytes([t0, t1, t2, t3]),
        ssrc: u32::from_be_bytes([s0, s1, s2, s3]),
        payload: rest,
    })
}

/// Refusals 7 to 9, and 17.
pub fn report(codes: &Codes, header: &Header) -> Result<Report, u8> {
    let &[code, flags, d0, d1] = header.payload else {
        let bytes = header.payload.len();
        return Err(if bytes >= 8 && bytes % 4 == 0 { 17 } else { 7 });
    };
    if !codes.contains(u32::from(code)) {
        return Err(8);
    }
    if (d0, d1) == (0, 0) {
        return Err(9);
    }
    Ok(Report {
        marker: header.marker,
        payload_type: header.payload_type,
        sequence: header.sequence,
        timestamp: header.timestamp,
        ssrc: header.ssrc,
        code: u32::from(code),
        ended: flags >= 128,
        volume: u32::from(flags % 64),
        duration: u32::from(u16::from_be_bytes([d0, d1])),
    })
}

pub fn read(codes: &Codes, packet: &[u8]) -> Result<Report, u8> {
    report(codes, &header(packet)?)
}

pub fn write(codes: &Codes, report: &Report, output: &mut [u8]) -> Result<(), u8> {
    if report.payload_type > 127
        || !codes.contains(report.code)
        || report.volume > 63
        || !(1..=65_535).contains(&report.duration)
    {
        return Err(12);
    }
    if output.len() < 16 {
        return Err(14);
    }
    output[..16].copy_from_slice(&bytes(report));
    Ok(())
}

/// The bytes of a report whose numbers are in range.
pub fn bytes(report: &Report) -> Vec<u8> {
    let mark = if report.marker { 128 } else { 0 };
    let end = if report.ended { 128 } else { 0 };
    let mut bytes = vec![0b1000_0000, mark + report.payload_type as u8];
    bytes.extend(report.sequence.to_be_bytes());
    bytes.extend(report.timestamp.to_be_bytes());
    bytes.extend(report.ssrc.to_be_bytes());
    bytes.extend([report.code as u8, end + report.volume as u8]);
    bytes.extend((report.duration as u16).to_be_bytes());
    bytes
}
