// What `import` does of a pcap file of Ethernet, in plain Rust, with buffers of 64 KiB. With a word each item is written by itself.
use std::fs::File;
use std::io::{self, BufReader, Read, Write};
use std::os::fd::FromRawFd;

const FRONT: usize = 2048;

struct Feed {
    greatest: u64,
    first: Option<u64>,
    spelled: Vec<u8>,
}

fn fill(input: &mut impl Read, into: &mut [u8]) -> io::Result<usize> {
    let mut done = 0;
    while done < into.len() {
        match input.read(&mut into[done..])? {
            0 => break,
            n => done += n,
        }
    }
    Ok(done)
}

fn u16_at(bytes: &[u8], at: usize) -> usize {
    usize::from(u16::from_be_bytes([bytes[at], bytes[at + 1]]))
}

// The group and the payload of a datagram to its port, none where it is cut; None where there is no datagram to such a port.
fn datagram(frame: &[u8]) -> Option<(u8, &[u8])> {
    if frame.len() < 14 {
        return None;
    }
    let (mut kind, mut rest) = (u16_at(frame, 12), &frame[14..]);
    for _ in 0..2 {
        if !matches!(kind, 0x8100 | 0x88A8 | 0x9100) {
            break;
        }
        if rest.len() < 4 {
            return None;
        }
        (kind, rest) = (u16_at(rest, 2), &rest[4..]);
    }
    if kind != 0x0800 || rest.len() < 20 {
        return None;
    }
    let (header, total) = (4 * usize::from(rest[0] & 15), u16_at(rest, 2));
    if rest[0] >> 4 != 4 || header < 20 || total < header || rest[9] != 17 {
        return None;
    }
    let part = u16_at(rest, 6);
    if part & 0x1FFF != 0 {
        return None;
    }
    let more = part & 0x2000 != 0;
    let udp = rest.get(header..)?;
    if udp.len() < 4 {
        return None;
    }
    let port = u16_at(udp, 2);
    if !(60_001..=60_016).contains(&port) {
        return None;
    }
    let group = (port - 60_001) as u8;
    if udp.len() < 6 {
        return Some((group, &[]));
    }
    let size = u16_at(udp, 4);
    if size < 8 || (!more && total - header < size) {
        return None;
    }
    let counted = (size - 8).min(1473);
    if more || udp.len() < 8 + counted {
        return Some((group, &[]));
    }
    Some((group, &udp[8..8 + counted]))
}

fn item(feed: &mut Feed, group: u8, utc: u64, payload: &[u8]) {
    feed.greatest = feed.greatest.max(utc);
    let first = *feed.first.get_or_insert(utc);
    feed.spelled.push(group);
    feed.spelled.extend_from_slice(&(feed.greatest - first).to_le_bytes());
    feed.spelled.extend_from_slice(&utc.to_le_bytes());
    feed.spelled.extend_from_slice(&(payload.len() as u16).to_le_bytes());
    feed.spelled.extend_from_slice(payload);
}

fn main() -> io::Result<()> {
    let gathers = std::env::args().nth(1).is_none();
    let mut input = BufReader::with_capacity(65_536, unsafe { File::from_raw_fd(0) });
    let mut output = unsafe { File::from_raw_fd(1) };
    let mut head = [0; 24];
    if fill(&mut input, &mut head)? < 24 || head[..4] != [0xD4, 0xC3, 0xB2, 0xA1] {
        return Err(io::Error::from(io::ErrorKind::InvalidData));
    }
    output.write_all(b"VDRFEED1")?;
    let mut feed = Feed { greatest: 0, first: None, spelled: Vec::with_capacity(65_536 + 1_492) };
    let (mut packet, mut front) = ([0; 16], [0; FRONT]);
    loop {
        let got = fill(&mut input, &mut packet)?;
        if got == 0 {
            break;
        }
        let number = |at: usize| u32::from_le_bytes([packet[at], packet[at + 1], packet[at + 2], packet[at + 3]]);
        let captured = number(8) as usize;
        let kept = captured.min(FRONT);
        if got < 16 || captured > 262_144 || fill(&mut input, &mut front[..kept])? < kept {
            return Err(io::Error::from(io::ErrorKind::InvalidData));
        }
        io::copy(&mut (&mut input).take((captured - kept) as u64), &mut io::sink())?;
        let utc = 1000 * u64::from(number(0)) + u64::from(number(4)) / 1000;
        if let Some((group, payload)) = datagram(&front[..kept]) {
            item(&mut feed, group, utc, payload);
            if !gathers || feed.spelled.len() > 65_536 {
                output.write_all(&feed.spelled)?;
                feed.spelled.clear();
            }
        }
    }
    output.write_all(&feed.spelled)
}
