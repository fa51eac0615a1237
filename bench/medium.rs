// What the anchors of `play`, `values` and `track` share: reading the long-term medium segment by segment, stamps, and checksums. Plain Rust on std
// alone, unproved; it judges no medium.
use std::fs::File;
use std::io::{self, BufWriter, StdoutLock, Write};
use std::os::unix::fs::FileExt;

pub const GROUPS: [&str; 16] = [
    "MISC", "TGTD", "SATD", "NAVD", "VDRD", "RCOM", "TIME", "PROP", "USR1", "USR2", "USR3", "USR4", "USR5", "USR6", "USR7", "USR8",
];
const OPEN: u8 = 0xA5;

pub type Out = BufWriter<StdoutLock<'static>>;

pub fn number<const N: usize>(bytes: &[u8], at: usize) -> [u8; N] {
    bytes[at..at + N].try_into().expect("so many bytes")
}

// A medium's segments: slot and sequence number of each, in order.
pub struct Medium {
    file: File,
    pub segment: usize,
    pub slots: Vec<(u64, u64)>,
}

impl Medium {
    pub fn open(path: String) -> io::Result<Medium> {
        let file = File::open(path)?;
        let mut front = [0; 23];
        file.read_exact_at(&mut front, 0)?;
        let segment = u32::from_le_bytes(number(&front, 15)) as usize;
        let mut slots = Vec::new();
        for slot in 0..u64::from(u32::from_le_bytes(number(&front, 19))) {
            let mut header = [0; 64];
            file.read_exact_at(&mut header, 32_768 + slot * segment as u64)?;
            if header[0] == OPEN {
                slots.push((u64::from_le_bytes(number(&header, 1)), slot));
            }
        }
        slots.sort();
        Ok(Medium { file, segment, slots })
    }

    pub fn read(&self, slot: u64, into: &mut [u8]) -> io::Result<()> {
        self.file.read_exact_at(into, 32_768 + slot * self.segment as u64)
    }
}

// Calls `each` with the head and the payload of each record of a segment.
pub fn records(segment: &[u8], mut each: impl FnMut(&[u8], &[u8]) -> io::Result<()>) -> io::Result<()> {
    let mut at = 64;
    while segment[at] == OPEN {
        let end = at + 5 + u32::from_le_bytes(number(segment, at + 1)) as usize;
        at += 5;
        while at < end {
            let size = usize::from(u16::from_le_bytes(number(segment, at + 2)));
            each(&segment[at..at + 44], &segment[at + 44..at + 44 + size])?;
            at += 44 + size;
        }
    }
    Ok(())
}

pub fn stamp(out: &mut Out, ms: i64) -> io::Result<()> {
    let (days, r) = (ms.div_euclid(86_400_000), ms.rem_euclid(86_400_000));
    let z = days + 719_468;
    let era = z.div_euclid(146_097);
    let doe = z - era * 146_097;
    let yoe = (doe - doe / 1460 + doe / 36_524 - doe / 146_096) / 365;
    let doy = doe - (365 * yoe + yoe / 4 - yoe / 100);
    let mp = (5 * doy + 2) / 153;
    let day = doy - (153 * mp + 2) / 5 + 1;
    let month = if mp < 10 { mp + 3 } else { mp - 9 };
    let year = yoe + era * 400 + i64::from(month <= 2);
    let (hour, minute, second) = (r / 3_600_000, r / 60_000 % 60, r / 1000 % 60);
    write!(out, "{year:04}-{month:02}-{day:02}T{hour:02}:{minute:02}:{second:02}.{:03}Z", r % 1000)
}

fn hex(b: u8) -> Option<u8> {
    (b as char).to_digit(16).map(|d| d as u8)
}

// The bytes before `*` and two digits, where these are their checksum.
pub fn checked(bytes: &[u8]) -> Option<&[u8]> {
    let (body, sum) = bytes.split_at_checked(bytes.len().checked_sub(3)?)?;
    let wanted = hex(sum[1])? * 16 + hex(sum[2])?;
    (sum[0] == b'*' && body.iter().fold(0, |a, b| a ^ b) == wanted).then_some(body)
}
