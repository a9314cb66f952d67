//! A small gateway: three calls, each with a UDP port, a table and a thread of its own. It tells a
//! key when it ends, and all keys of a call when that hangs up.
//!
//! Telephone events, sound and RTCP come on one port (RFC 5761). The phones are one more thread, and
//! some of their packets are lost, repeated or swapped. examples/c/gateway.c is the same in C.

use std::error::Error;
use std::io::ErrorKind::{Interrupted, TimedOut, WouldBlock};
use std::net::{Ipv4Addr, SocketAddr, UdpSocket};
use std::thread;
use std::time::Duration;
use twimbor::{Codes, Event, Plan, Refusal, Report, Table};

type Result<T> = std::result::Result<T, Box<dyn Error + Send + Sync>>;

/// Of the telephone events, agreed on before (SDP).
const PAYLOAD_TYPE: u32 = 101;
/// The line of the session description that lists the events.
const DESCRIPTION: &str = "a=fmtp:101 0-15,66,70";
/// Timestamp units in a second, agreed on with it.
const RATE: u32 = 8000;
/// A call from which nothing is heard for so long has hung up.
const SILENCE: Duration = Duration::from_secs(5);
/// RTCP packet types (RFC 3550).
const RECEIVER_REPORT: u8 = 201;
const BYE: u8 = 203;

/// The codes that such a line agrees on.
fn codes_of(line: &str) -> Result<Codes> {
    let list = line.strip_prefix(&format!("a=fmtp:{PAYLOAD_TYPE} "));
    let list = list.ok_or_else(|| format!("{line}: not of the telephone events"))?;
    list.parse().map_err(|refusal| format!("{line}: {refusal}").into())
}

struct Call {
    number: usize,
    /// An event packet has come, and the table is open for its SSRC.
    has_source: bool,
    table: Table,
    /// Start and code of the events told.
    told: Vec<(u32, u8)>,
}

impl Call {
    fn new(number: usize, codes: Codes) -> Result<Call> {
        let table = Table::open(codes, PAYLOAD_TYPE, 0, 0)?;
        Ok(Call { number, has_source: false, table, told: Vec::new() })
    }

    fn open_table(&mut self, ssrc: u32, origin: u32) -> Result<()> {
        self.table = Table::open(self.table.codes(), PAYLOAD_TYPE, ssrc, origin)?;
        self.has_source = true;
        self.told.clear();
        Ok(())
    }

    /// Once for each event.
    fn tell(&mut self, event: &Event, remark: &str) {
        if !self.told.contains(&(event.start, event.code)) {
            self.told.push((event.start, event.code));
            let ms = event.length / (RATE / 1000);
            let name = match Codes::KEYS.contains(event.code) {
                true => format!("key {}", event.key()),
                false => format!("event {}", event.code),
            };
            println!("call {}: {name}, {ms} ms{remark}", self.number);
        }
    }

    fn tell_ended(&mut self) -> Result<()> {
        let mut before = Event { ended: true, ..Event::default() };
        for event in self.table.events()? {
            // The last segments of a long key, if a report between them and the first ones is still
            // on its way.
            let is_rest = !event.began && event.code == before.code && !before.ended;
            if event.ended && !is_rest {
                self.tell(&event, "");
            }
            before = event;
        }
        Ok(())
    }

    /// Tells what has not ended too, and then all keys in their order.
    fn finish(&mut self, why: &str) -> Result<()> {
        let events = self.table.events()?;
        for event in &events {
            self.tell(event, ", not all heard");
        }
        let keys: String = events.iter().map(Event::key).collect();
        println!("call {}: {why}: keys {keys}", self.number);
        Ok(())
    }

    fn receive(&mut self, packet: &[u8]) -> Result<()> {
        if !self.has_source {
            match Report::read(self.table.codes(), packet) {
                // A minute of room for reports that were sent before this one and come after it.
                Ok(report) if report.payload_type == PAYLOAD_TYPE => {
                    self.open_table(report.ssrc, report.timestamp.wrapping_sub(60 * RATE))?;
                }
                _ => return Ok(()),
            }
        }
        let mut received = self.table.receive(packet);
        if let Err(full @ Refusal::TableFull) = received {
            // The next table begins after the last segment: late copies of what this one holds are
            // refused, and no key is told twice.
            let head = self.table.head;
            let last = self.table.segments().last().map_or(0, |segment| segment.offset);
            self.finish(&full.to_string())?;
            self.open_table(head.ssrc, head.origin.wrapping_add(last + 1))?;
            received = self.table.receive(packet);
        }
        match received {
            Ok(_) => self.tell_ended()?,
            Err(Refusal::OtherPayloadType) => {} // sound is passed over
            Err(refusal) => println!("call {}: refused: {refusal}", self.number),
        }
        Ok(())
    }

    /// Hears the call up to its hang-up.
    fn hear(&mut self, port: &UdpSocket) -> Result<()> {
        port.set_read_timeout(Some(SILENCE))?;
        let mut buffer = [0; 1500];
        loop {
            let packet = match port.recv(&mut buffer) {
                Ok(bytes) => &buffer[..bytes],
                Err(error) if error.kind() == Interrupted => continue,
                Err(error) if matches!(error.kind(), WouldBlock | TimedOut) => {
                    return self.finish("silent");
                }
                Err(error) => return Err(error.into()),
            };
            match packet.get(1) {
                Some(192..=223) if has_bye(packet) => return self.finish("hung up"),
                Some(192..=223) => {} // RTCP (RFC 5761, 4)
                _ => self.receive(packet)?,
            }
        }
    }
}

/// RTCP packets come several in one, each with its type and its length in words after the first.
fn has_bye(mut packet: &[u8]) -> bool {
    while let [_, packet_type, w0, w1, ..] = *packet {
        if packet_type == BYE {
            return true;
        }
        let words = 1 + usize::from(u16::from_be_bytes([w0, w1]));
        packet = packet.get(4 * words..).unwrap_or_default();
    }
    false
}

// The phones.

fn send(to: &UdpSocket, packet: &[u8]) -> Result<()> {
    to.send(packet)?;
    // Phones send less often, and a socket has room for some hundred packets.
    thread::sleep(Duration::from_millis(1));
    Ok(())
}

/// Sends the first reports of a key: each two are swapped, every fifth is lost, and every fourth
/// comes twice.
fn send_key(to: &UdpSocket, codes: Codes, plan: &Plan, reports: usize) -> Result<()> {
    let packets: Vec<_> = plan.packets(codes)?.collect();
    for n in 0..packets.len().min(reports) {
        let k = if n ^ 1 < packets.len() { (n ^ 1) + 1 } else { n + 1 };
        let copies = if k % 5 == 0 { 0 } else { 1 + usize::from(k % 4 == 0) };
        for _ in 0..copies {
            send(to, &packets[k - 1])?;
        }
    }
    Ok(())
}

fn send_all(gateway: &[SocketAddr], codes: Codes) -> Result<()> {
    let sound = [&[0x80][..], &[0; 11 + 160]].concat();
    let bye = [0x80, RECEIVER_REPORT, 0, 1, 0, 0, 0, 7, 0x81, BYE, 0, 1, 0, 0, 0, 7];
    let mut packed = [0; 20];
    (packed[0], packed[1], packed[11], packed[15], packed[19]) = (0x80, 101, 7, 100, 100);
    let flash = [&packed[..12], &[16, 0, 0, 100]].concat(); // on which nobody agreed
    let mut now = [1000, u32::MAX - 1000, 2_000_000_000];
    let mut phones = Vec::new();
    for port in gateway {
        let phone = UdpSocket::bind((Ipv4Addr::LOCALHOST, 0))?;
        phone.connect(port)?;
        phones.push(phone);
    }

    // Call, code, length, segment size, and how many of the first reports are sent.
    const ALL: usize = usize::MAX;
    let mut presses = vec![
        (0, 1, 960, 65_535, ALL),
        (1, 5, 70_000, 65_535, ALL),
        (0, 2, 960, 65_535, ALL),
        (0, 11, 960, 65_535, ALL),
    ];
    // Short segments, as many as a table holds, and two keys more.
    presses.extend((0..8).map(|code| (2, code, 6400, 400, ALL)));
    presses.extend([8, 9].map(|code| (2, code, 960, 65_535, ALL)));
    // The line's ringing tone.
    presses.push((1, 70, 16_000, 65_535, ALL));
    // Still held at the hang-up.
    presses.push((0, 7, 960, 65_535, 2));

    for (call, code, length, segment_size, reports) in presses {
        let plan = Plan {
            payload_type: PAYLOAD_TYPE,
            ssrc: 7,
            start: now[call],
            code,
            volume: 10,
            length,
            period: 400,
            segment_size,
            ..Plan::default()
        };
        send(&phones[call], &sound)?;
        send(&phones[call], &bye[..8])?; // the receiver report alone
        send_key(&phones[call], codes, &plan, reports)?;
        now[call] = now[call].wrapping_add(length + RATE);
    }
    send(&phones[0], &packed)?;
    send(&phones[0], &flash)?;
    phones.iter().try_for_each(|phone| send(phone, &bye))
}

fn main() -> Result<()> {
    let codes = codes_of(DESCRIPTION)?;
    let mut ports = Vec::new();
    let mut addresses = Vec::new();
    for _ in 0..3 {
        let port = UdpSocket::bind((Ipv4Addr::LOCALHOST, 0))?;
        addresses.push(port.local_addr()?);
        ports.push(port);
    }
    let hear =
        |(i, port): (usize, UdpSocket)| thread::spawn(move || Call::new(i + 1, codes)?.hear(&port));
    let mut threads: Vec<_> = ports.into_iter().enumerate().map(hear).collect();
    threads.push(thread::spawn(move || send_all(&addresses, codes)));
    threads.into_iter().try_for_each(|thread| thread.join().expect("a thread panicked"))
}
