// The anchor for batches on a ring: plain Rust, the same writes and syncs as an append makes, and no table beside them.
// `ring FOLDER BATCHES` appends that many batches of one record with 100 bytes of payload to FOLDER/capsule.vdr, in segments of
// 8,192 bytes from byte 32,768 on, and begins again at the first slot when the last one is full.
use std::fs::{File, OpenOptions};
use std::os::unix::fs::FileExt;
use std::{env, io};

const SEGMENT: u64 = 8_192;
const BATCH: usize = 149;

// Writes the bytes and syncs.
fn write_through(file: &File, at: u64, bytes: &[u8]) -> io::Result<()> {
    file.write_all_at(bytes, at)?;
    file.sync_data()
}

// Begins a segment in a slot, whose gate is closed first where it was open.
fn begin(file: &File, slot: u64, open: bool, seq: u64, first: u64) -> io::Result<()> {
    let place = 32_768 + slot * SEGMENT;
    if open {
        write_through(file, place, &[0])?;
    }
    let mut header = [0; 64];
    header[..8].copy_from_slice(&seq.to_le_bytes());
    header[8..16].copy_from_slice(&first.to_le_bytes());
    write_through(file, place + 1, &header)?;
    write_through(file, place, &[0xA5])
}

// Writes the summary of the segment in a slot, which has the records of these numbers.
fn summarize(file: &File, slot: u64, first: u64, last: u64) -> io::Result<()> {
    let place = 32_768 + slot * SEGMENT;
    let mut summary = [0; 44];
    summary[..4].copy_from_slice(&((last - first + 1) as u32).to_le_bytes());
    summary[4..12].copy_from_slice(&(first / 2).to_le_bytes());
    summary[12..20].copy_from_slice(&(last / 2).to_le_bytes());
    write_through(file, place + 18, &summary)?;
    write_through(file, place + 17, &[0xA5])
}

// A batch of one record, with the gate that closes it.
fn batch(number: u64, into: &mut [u8]) {
    into[0] = 0xA5;
    into[1..5].copy_from_slice(&144u32.to_le_bytes());
    into[5] = 1;
    into[6] = 3;
    into[7..9].copy_from_slice(&100u16.to_le_bytes());
    into[17..25].copy_from_slice(&number.to_le_bytes());
    into[25..33].copy_from_slice(&number.to_le_bytes());
    into[33..41].copy_from_slice(&(500 * number).to_le_bytes());
    into[49..149].fill(b'x');
    into[149] = 0;
}

fn main() -> io::Result<()> {
    let words: Vec<String> = env::args().collect();
    let batches: u64 = words[2].parse().expect("a number");
    let file = OpenOptions::new().read(true).write(true).open(format!("{}/capsule.vdr", words[1]))?;
    let slots = (file.metadata()?.len() - 32_768) / SEGMENT;
    let (mut seq, mut end, mut first) = (0, SEGMENT, 0);
    let mut bytes = [0; BATCH + 1];
    for number in 0..batches {
        if end + BATCH as u64 + 1 > SEGMENT {
            begin(&file, seq % slots, seq >= slots, seq, number)?;
            seq += 1;
            end = 64;
        }
        let at = 32_768 + (seq - 1) % slots * SEGMENT + end;
        batch(number, &mut bytes);
        write_through(&file, at + 1, &bytes[1..])?;
        write_through(&file, at, &bytes[..1])?;
        if end == 64 {
            if seq > 1 {
                summarize(&file, (seq - 2) % slots, first, number - 1)?;
            }
            first = number;
        }
        end += BATCH as u64;
    }
    println!("{batches} batches");
    Ok(())
}
