// The anchor for `values` and `track`: plain Rust on std alone, unproved, which reads the long-term medium segment by segment.
// `values FOLDER` prints the table of FOLDER/longterm.vdr, `values FOLDER SOURCE` the track of a source. It knows headings (HDT) and positions (GLL)
// alone, prints no Gap, and judges no medium.
mod medium;

use medium::{GROUPS, Medium, Out, checked, number, records, stamp};
use std::env;
use std::io::{self, BufWriter, Write};

const HEADER: &str = "utc,place,transmission_group,source,sentence,item,name,value,unit,valid,text\n";
const LONGEST: i64 = 10_000;

// A line with a TAG block that names a source: this, the address, and the fields behind it.
struct Line<'a> {
    source: &'a [u8],
    address: &'a str,
    fields: Vec<&'a str>,
}

fn read(line: &[u8]) -> Option<Line<'_>> {
    let rest = line.strip_prefix(b"\\")?;
    let end = rest.iter().position(|&b| b == b'\\')?;
    let source = checked(&rest[..end])?.split(|&b| b == b',').find_map(|item| item.strip_prefix(b"s:"))?;
    let sentence = rest[end + 1..].strip_prefix(b"$")?.strip_suffix(b"\r\n")?;
    if sentence.len() > 79 || sentence.iter().any(|b| !(0x20..=0x7e).contains(b)) {
        return None;
    }
    let mut fields = std::str::from_utf8(checked(sentence)?).ok()?.split(',');
    Some(Line { source, address: fields.next()?, fields: fields.collect() })
}

// Digits and a fraction, in units of its last of so many places.
fn decimal(text: &str, places: usize) -> Option<u64> {
    let (whole, fraction) = text.split_once('.').unwrap_or((text, ""));
    if fraction.len() > places {
        return None;
    }
    let scale = 10u64.pow((places - fraction.len()) as u32);
    let fraction = if fraction.is_empty() { 0 } else { fraction.parse::<u64>().ok()? * scale };
    Some(whole.parse::<u64>().ok()? * 10u64.pow(places as u32) + fraction)
}

fn print_decimal(out: &mut Out, negative: bool, n: u64, places: usize) -> io::Result<()> {
    let scale = 10u64.pow(places as u32);
    let fraction = format!("{:0places$}", n % scale);
    let fraction = fraction.trim_end_matches('0');
    let point = if fraction.is_empty() { "" } else { "." };
    write!(out, "{}{}{point}{fraction}", if negative && n > 0 { "-" } else { "" }, n / scale)
}

// An angle in hundred-millionths of a degree, and whether it is south or west.
fn angle(text: &str, digits: usize, letter: &str) -> Option<(bool, u64)> {
    let (degrees, minutes) = text.split_at_checked(digits)?;
    let billionths = 60_000_000_000 * degrees.parse::<u64>().ok()? + decimal(minutes, 9)?;
    Some((letter == "S" || letter == "W", (2 * billionths + 600) / 1200))
}

type Place = ((bool, u64), (bool, u64));

fn position(line: &Line<'_>) -> Option<(Place, bool)> {
    let f = &line.fields;
    if !line.address.ends_with("GLL") || f.len() < 6 {
        return None;
    }
    Some(((angle(f[0], 2, f[1])?, angle(f[2], 3, f[3])?), f[5] == "A"))
}

fn heading_of(out: &mut Out, head: &[u8]) -> io::Result<()> {
    stamp(out, i64::from_le_bytes(number(head, 36)))?;
    write!(out, ",{},", u64::from_le_bytes(number(head, 12)))
}

fn front(out: &mut Out, head: &[u8], line: &Line<'_>) -> io::Result<()> {
    heading_of(out, head)?;
    write!(out, "{},\"", GROUPS[usize::from(head[1])])?;
    for &b in line.source {
        out.write_all(if b == b'"' { b"\"\"" } else { std::slice::from_ref(&b) })?;
    }
    write!(out, "\",{},,", line.address)
}

fn rows(out: &mut Out, head: &[u8], payload: &[u8]) -> io::Result<()> {
    if head[0] != 1 {
        heading_of(out, head)?;
        return out.write_all(if head[0] == 0 { b",,,,start,,,,\n" } else { b",,,,stop,,,,\n" });
    }
    let Some(lines) = payload.strip_prefix(b"UdPbC\0") else {
        return Ok(());
    };
    for line in lines.split_inclusive(|&b| b == b'\n').filter_map(read) {
        if let Some(((latitude, longitude), valid)) = position(&line) {
            for (name, (negative, n)) in [("latitude", latitude), ("longitude", longitude)] {
                front(out, head, &line)?;
                write!(out, "{name},")?;
                print_decimal(out, negative, n, 8)?;
                writeln!(out, ",deg,{},", u8::from(valid))?;
            }
        } else if line.address.ends_with("HDT") && line.fields.get(1) == Some(&"T") {
            if let Some(n) = decimal(line.fields[0], 6) {
                front(out, head, &line)?;
                out.write_all(b"heading,")?;
                print_decimal(out, false, n, 6)?;
                out.write_all(b",deg,,\n")?;
            }
        }
    }
    Ok(())
}

// The group and the stamp of the point that was printed last, where its segment is open.
type Last = Option<(u8, i64)>;

fn point(out: &mut Out, last: &mut Last, head: &[u8], place: Option<Place>) -> io::Result<()> {
    let (group, utc) = (head[1], i64::from_le_bytes(number(head, 36)));
    let goes_on = place.is_some() && last.is_some_and(|(g, t)| g == group && t <= utc && utc - t <= LONGEST);
    if last.is_some() && !goes_on {
        out.write_all(b"</trkseg>\n")?;
    }
    let Some(((south, latitude), (west, longitude))) = place else {
        *last = None;
        return Ok(());
    };
    out.write_all(if goes_on { b"<trkpt lat=\"" } else { b"<trkseg>\n<trkpt lat=\"" })?;
    print_decimal(out, south, latitude, 8)?;
    out.write_all(b"\" lon=\"")?;
    print_decimal(out, west, longitude, 8)?;
    out.write_all(b"\"><time>")?;
    stamp(out, utc)?;
    *last = Some((group, utc));
    out.write_all(b"</time></trkpt>\n")
}

fn track(out: &mut Out, last: &mut Last, source: &[u8], head: &[u8], payload: &[u8]) -> io::Result<()> {
    if head[0] == 0 {
        return point(out, last, head, None);
    }
    let Some(lines) = payload.strip_prefix(b"UdPbC\0") else {
        return Ok(());
    };
    for line in lines.split_inclusive(|&b| b == b'\n').filter_map(read).filter(|line| line.source == source) {
        if let Some((place, valid)) = position(&line) {
            point(out, last, head, valid.then_some(place))?;
        }
    }
    Ok(())
}

fn main() -> io::Result<()> {
    let words: Vec<String> = env::args().collect();
    let medium = Medium::open(format!("{}/longterm.vdr", words[1]))?;
    let mut buffer = vec![0; medium.segment];
    let mut out = BufWriter::with_capacity(8_192, io::stdout().lock());
    let (source, mut last) = (words.get(2), None);
    match source {
        None => out.write_all(HEADER.as_bytes())?,
        Some(name) => write!(out, "<?xml version=\"1.0\" encoding=\"UTF-8\"?>\n<gpx version=\"1.1\" creator=\"vdr\" xmlns=\"http://www.topografix.com/GPX/1/1\">\n<trk><name>{name}</name>\n")?,
    }
    for &(_, slot) in &medium.slots {
        medium.read(slot, &mut buffer)?;
        records(&buffer, |head, payload| match source {
            None => rows(&mut out, head, payload),
            Some(name) => track(&mut out, &mut last, name.as_bytes(), head, payload),
        })?;
    }
    if source.is_some() {
        out.write_all(if last.is_some() { b"</trkseg>\n</trk>\n</gpx>\n" } else { b"</trk>\n</gpx>\n" })?;
    }
    out.flush()
}
