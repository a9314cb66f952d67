//! One press of a key in redundant packets (RFC 2198): each repeats the two reports before it, so
//! two of every three packets may be lost. It is received from what is left, and lists as one
//! event.

use twimbor::{Codes, Entry, OLDER_REPORTS, OlderReport, PACKET_BYTES, Plan, REDUNDANT_BYTES};
use twimbor::{Refusal, Report, Table};

/// Of the telephone events and of redundant packets, and which events, agreed on before (SDP).
const PAYLOAD_TYPE: u32 = 101;
const REDUNDANT_TYPE: u32 = 96;
const CODES: Codes = Codes::KEYS;
/// Timestamp units between reports: 200 ms.
const PERIOD: u32 = 1600;
/// A block says in 14 bits how much older it is, so segments are shorter than usual (RFC 4733,
/// 2.5.1.3.1, with two layers of older reports).
const SEGMENT_SIZE: u32 = 0x3FFF - (OLDER_REPORTS as u32 - 1) * PERIOD;

/// The packet of a report that repeats those before it; a plain one if there are none.
fn packet(reports: &[Report], n: usize) -> Result<Vec<u8>, Refusal> {
    let mut packet = vec![0; REDUNDANT_BYTES];
    let older = reports[n.saturating_sub(OLDER_REPORTS)..n].iter().map(OlderReport::from);
    let bytes = match &older.collect::<Vec<_>>()[..] {
        [] => reports[n].write(CODES, &mut packet).map(|()| PACKET_BYTES)?,
        older => reports[n].write_redundant(CODES, REDUNDANT_TYPE, older, &mut packet)?,
    };
    packet.truncate(bytes);
    Ok(packet)
}

/// Receives a packet, and says what each of its reports was.
fn receive(table: &mut Table, packet: &[u8]) -> Result<String, Refusal> {
    let mut entries = [Entry::default(); 1 + OLDER_REPORTS];
    let blocks = table.receive_redundant(packet, &mut entries)?;
    let words = entries[..blocks].iter().map(|entry| match entry.answer() {
        Ok(taken) => format!("{taken:?}").to_lowercase(),
        Err(refusal) => refusal.to_string(),
    });
    Ok(words.collect::<Vec<_>>().join(", "))
}

fn main() -> Result<(), Refusal> {
    let plan = Plan {
        payload_type: PAYLOAD_TYPE,
        ssrc: 0x1122_3344,
        sequence: 1,
        start: 5000,
        code: 5,
        volume: 10,
        length: 24_000,
        period: PERIOD,
        segment_size: SEGMENT_SIZE,
    };
    let packets = plan.packets(CODES)?;
    let reports: Result<Vec<_>, _> = packets.map(|packet| Report::read(CODES, &packet)).collect();
    let reports = reports?;
    let mut table =
        Table::open_redundant(CODES, PAYLOAD_TYPE, REDUNDANT_TYPE, plan.ssrc, plan.start)?;
    for n in 0..reports.len() {
        let packet = packet(&reports, n)?;
        // The first must arrive: only a primary can be marked, and no copy stands in for it.
        let said = if n % 3 == 0 { receive(&mut table, &packet)? } else { "lost".to_string() };
        println!("packet {}, {} bytes: {said}", n + 1, packet.len());
    }
    println!("segments held: {}", table.segments().len());
    for event in table.events()? {
        let (key, start, length) = (event.key(), event.start, event.length);
        let heard = if event.began && event.ended { "all heard" } else { "not all heard" };
        println!("key {key} from {start} on, {length} units: {heard}");
    }
    Ok(())
}
