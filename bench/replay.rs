// The anchor for `replay`: plain Rust, the same writes and syncs as a recording makes on both media, and no table beside them.
// `replay FOLDER SEGMENT BATCH < FEED` appends a Start, the datagrams of the feed, as many in a batch as fit BATCH bytes, and a Stop
// to FOLDER/capsule.vdr and then to FOLDER/longterm.vdr, in segments of SEGMENT bytes from byte 32,768 on, beginning again at the
// first slot when the last one is full.
use std::env;
use std::fs::{File, OpenOptions};
use std::io::{self, BufReader, Read};
use std::os::unix::fs::FileExt;

// What some records have in common: how many there are, their first and last second, and their least and greatest stamp.
#[derive(Clone, Copy)]
struct Summary {
    count: u32,
    seconds: (u64, u64),
    stamps: (i64, i64),
}

impl Summary {
    fn with(self, behind: Summary) -> Summary {
        Summary {
            count: self.count + behind.count,
            seconds: (self.seconds.0, behind.seconds.1),
            stamps: (self.stamps.0.min(behind.stamps.0), self.stamps.1.max(behind.stamps.1)),
        }
    }

    fn bytes(self) -> [u8; 44] {
        let mut bytes = [0; 44];
        bytes[..4].copy_from_slice(&self.count.to_le_bytes());
        bytes[4..12].copy_from_slice(&self.seconds.0.to_le_bytes());
        bytes[12..20].copy_from_slice(&self.seconds.1.to_le_bytes());
        bytes[20..28].copy_from_slice(&self.stamps.0.to_le_bytes());
        bytes[28..36].copy_from_slice(&self.stamps.1.to_le_bytes());
        bytes
    }
}

struct Medium {
    file: File,
    segment: u64,
    slots: u64,
    seq: u64,
    end: u64,
    // Of the newest segment.
    summary: Option<Summary>,
}

impl Medium {
    fn open(path: String, segment: u64) -> io::Result<Medium> {
        let file = OpenOptions::new().read(true).write(true).open(path)?;
        let slots = (file.metadata()?.len() - 32_768) / segment;
        Ok(Medium { file, segment, slots, seq: 0, end: segment, summary: None })
    }

    // Writes the bytes and syncs.
    fn write_through(&self, at: u64, bytes: &[u8]) -> io::Result<()> {
        self.file.write_all_at(bytes, at)?;
        self.file.sync_data()
    }

    // Begins the next segment, in a slot whose gate is closed first where it was open.
    fn begin(&mut self, first: u64) -> io::Result<()> {
        let place = 32_768 + self.seq % self.slots * self.segment;
        if self.seq >= self.slots {
            self.write_through(place, &[0])?;
        }
        let mut header = [0; 64];
        header[..8].copy_from_slice(&self.seq.to_le_bytes());
        header[8..16].copy_from_slice(&first.to_le_bytes());
        self.write_through(place + 1, &header)?;
        self.write_through(place, &[0xA5])?;
        self.seq += 1;
        self.end = 64;
        Ok(())
    }

    // Writes the summary of the segment before the newest.
    fn leave(&self, summary: Summary) -> io::Result<()> {
        let place = 32_768 + (self.seq - 2) % self.slots * self.segment;
        self.write_through(place + 18, &summary.bytes())?;
        self.write_through(place + 17, &[0xA5])
    }

    // Appends a batch, of which the last byte is the gate that closes it.
    fn append(&mut self, first: u64, batch: &[u8], summary: Summary) -> io::Result<()> {
        let mut left = None;
        if self.end + batch.len() as u64 > self.segment {
            self.begin(first)?;
            left = self.summary.take();
        }
        let at = 32_768 + (self.seq - 1) % self.slots * self.segment + self.end;
        self.write_through(at + 1, &batch[1..])?;
        self.write_through(at, &batch[..1])?;
        if let Some(left) = left {
            self.leave(left)?;
        }
        self.end += batch.len() as u64 - 1;
        self.summary = Some(self.summary.map_or(summary, |before| before.with(summary)));
        Ok(())
    }
}

// A batch that is put together, behind its gate and its length.
struct Batch {
    bytes: Vec<u8>,
    first: u64,
    summary: Option<Summary>,
}

impl Batch {
    fn new(size: usize) -> Batch {
        let mut bytes = Vec::with_capacity(size + 6);
        bytes.extend_from_slice(&[0xA5, 0, 0, 0, 0]);
        Batch { bytes, first: 0, summary: None }
    }

    fn push(&mut self, kind: u8, group: u8, place: u64, tick: u64, utc: i64, payload: &[u8]) {
        if self.bytes.len() == 5 {
            self.first = place;
        }
        let at = self.bytes.len();
        self.bytes.resize(at + 44, 0);
        let head = &mut self.bytes[at..];
        head[0] = kind;
        head[1] = group;
        head[2..4].copy_from_slice(&(payload.len() as u16).to_le_bytes());
        head[12..20].copy_from_slice(&place.to_le_bytes());
        head[28..36].copy_from_slice(&tick.to_le_bytes());
        head[36..44].copy_from_slice(&utc.to_le_bytes());
        self.bytes.extend_from_slice(payload);
        let own = Summary { count: 1, seconds: (tick / 1_000, tick / 1_000), stamps: (utc, utc) };
        self.summary = Some(self.summary.map_or(own, |before| before.with(own)));
    }

    // Appends it to both media, and begins anew.
    fn commit(&mut self, media: &mut [Medium; 2]) -> io::Result<()> {
        let Some(summary) = self.summary.take() else {
            return Ok(());
        };
        let size = self.bytes.len() as u32 - 5;
        self.bytes[1..5].copy_from_slice(&size.to_le_bytes());
        self.bytes.push(0);
        for medium in media {
            medium.append(self.first, &self.bytes, summary)?;
        }
        self.bytes.truncate(5);
        Ok(())
    }
}

// The next item of the feed: its group, when it was received and its stamp. Its bytes go to the buffer.
fn item(input: &mut impl Read, bytes: &mut Vec<u8>) -> io::Result<Option<(u8, u64, i64)>> {
    let mut head = [0; 19];
    if input.read(&mut head[..1])? == 0 {
        return Ok(None);
    }
    input.read_exact(&mut head[1..])?;
    let received = u64::from_le_bytes(head[1..9].try_into().expect("eight bytes"));
    let utc = i64::from_le_bytes(head[9..17].try_into().expect("eight bytes"));
    bytes.resize(u16::from_le_bytes([head[17], head[18]]) as usize, 0);
    input.read_exact(bytes)?;
    Ok(Some((head[0], received, utc)))
}

fn main() -> io::Result<()> {
    let words: Vec<String> = env::args().collect();
    let segment = words[2].parse().expect("a size");
    let room: usize = words[3].parse().expect("a size");
    let mut media = [
        Medium::open(format!("{}/capsule.vdr", words[1]), segment)?,
        Medium::open(format!("{}/longterm.vdr", words[1]), segment)?,
    ];
    let mut input = BufReader::with_capacity(65_536, io::stdin().lock());
    let mut header = [0; 8];
    input.read_exact(&mut header)?;
    let (mut place, mut tick, mut utc, mut left) = (0, 0, 0, room);
    let mut bytes = Vec::new();
    let mut batch = Batch::new(room);
    batch.push(0, 0, place, tick, utc, &[]);
    batch.commit(&mut media)?;
    while let Some((group, received, stamp)) = item(&mut input, &mut bytes)? {
        let size = 44 + bytes.len();
        if size > left {
            batch.commit(&mut media)?;
            left = room;
        }
        left -= size;
        place += 1;
        (tick, utc) = (received, stamp);
        batch.push(1, group, place, tick, utc, &bytes);
    }
    batch.commit(&mut media)?;
    batch.push(3, 0, place + 1, tick, utc, &[]);
    batch.commit(&mut media)?;
    println!("records {}", place + 2);
    Ok(())
}
