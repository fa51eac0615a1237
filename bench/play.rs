// The anchor for `play`: plain Rust on std alone, unproved, which reads the long-term medium segment by segment and prints the same text.
// `play FOLDER SECONDS FROM TO` prints of FOLDER/longterm.vdr the records of the last SECONDS of recording time whose stamps, in
// milliseconds since 1970, are in FROM to TO. It knows headings (HDT) alone among the formatters, and judges no medium.
mod medium;

use medium::{GROUPS, Medium, Out, checked, number, records, stamp};
use std::env;
use std::io::{self, BufWriter, Write};

fn escaped(out: &mut Out, bytes: &[u8]) -> io::Result<()> {
    for &b in bytes {
        if (0x20..=0x7e).contains(&b) && b != b'<' {
            out.write_all(&[b])?;
        } else {
            write!(out, "<{b:02x}>")?;
        }
    }
    Ok(())
}

// A line of one TAG block with source and count, and a heading sentence: source, count, address and the heading.
fn heading(line: &[u8]) -> Option<(&[u8], u64, &[u8], &str)> {
    let rest = line.strip_prefix(b"\\")?;
    let end = rest.iter().position(|&b| b == b'\\')?;
    let (mut source, mut count) = (None, None);
    for item in checked(&rest[..end])?.split(|&b| b == b',') {
        let (code, value) = (item.first()?, item.get(2..)?);
        match code {
            b's' => source = Some(value),
            b'n' => count = std::str::from_utf8(value).ok()?.parse().ok(),
            _ => {}
        }
    }
    let sentence = rest[end + 1..].strip_prefix(b"$")?.strip_suffix(b"\r\n")?;
    if sentence.len() > 79 || sentence.iter().any(|b| !(0x20..=0x7e).contains(b)) {
        return None;
    }
    let mut fields = checked(sentence)?.split(|&b| b == b',');
    let (address, value) = (fields.next()?, fields.next()?);
    let value = std::str::from_utf8(value).ok()?;
    value.parse::<f64>().ok()?;
    (address.ends_with(b"HDT") && fields.next()? == b"T").then_some((source?, count?, address, value))
}

fn under(out: &mut Out, payload: &[u8]) -> io::Result<()> {
    let Some(lines) = payload.strip_prefix(b"UdPbC\0") else {
        return out.write_all(b"  opaque\n");
    };
    for line in lines.split_inclusive(|&b| b == b'\n') {
        match heading(line) {
            Some((source, count, address, value)) => {
                out.write_all(b"  good ")?;
                out.write_all(source)?;
                write!(out, " {count} ")?;
                out.write_all(address)?;
                let (whole, fraction) = value.split_once('.').unwrap_or((value, ""));
                let fraction = fraction.trim_end_matches('0');
                let point = if fraction.is_empty() { "" } else { "." };
                writeln!(out, " heading {}{point}{fraction}", whole.parse::<u32>().unwrap_or(0))?;
            }
            None => out.write_all(b"  refused\n")?,
        }
    }
    Ok(())
}

fn print(out: &mut Out, head: &[u8], payload: &[u8]) -> io::Result<()> {
    let place = u64::from_le_bytes(number(head, 12));
    let utc = i64::from_le_bytes(number(head, 36));
    if head[0] != 1 {
        write!(out, "{place} - - ")?;
        stamp(out, utc)?;
        return out.write_all(if head[0] == 0 { b" start\n" } else { b" stop\n" });
    }
    write!(out, "{place} {} {} ", GROUPS[usize::from(head[1])], u64::from_le_bytes(number(head, 20)))?;
    stamp(out, utc)?;
    write!(out, " data {} ", payload.len())?;
    escaped(out, payload)?;
    out.write_all(b"\n")?;
    under(out, payload)
}

fn main() -> io::Result<()> {
    let words: Vec<String> = env::args().collect();
    let [seconds, from, to] = [2, 3, 4].map(|k| words[k].parse::<i64>().expect("a number"));
    let medium = Medium::open(format!("{}/longterm.vdr", words[1]))?;
    let mut buffer = vec![0; medium.segment];
    let mut out = BufWriter::with_capacity(8_192, io::stdout().lock());
    let Some(&(_, newest)) = medium.slots.last() else {
        return Ok(());
    };
    let tick = |head: &[u8]| u64::from_le_bytes(number(head, 28)) as i64;
    let mut last = 0;
    medium.read(newest, &mut buffer)?;
    records(&buffer, |head, _| Ok(last = tick(head) / 1000))?;
    for &(_, slot) in &medium.slots {
        medium.read(slot, &mut buffer)?;
        records(&buffer, |head, payload| {
            let utc = i64::from_le_bytes(number(head, 36));
            if tick(head) / 1000 + seconds > last && (from..=to).contains(&utc) {
                print(&mut out, head, payload)?;
            }
            Ok(())
        })?;
    }
    out.flush()
}
