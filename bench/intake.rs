// The anchor for the speed of the queue: a plain Rust program on std alone, unproved. One thread sends so many datagrams of 100
// bytes to another through a bounded channel of 256, and the number of those that arrived in order is printed. With the second
// argument `inline` an item holds its bytes, as the recorder's does, with `heap` (the default) a Vec.
use std::sync::mpsc::sync_channel;
use std::thread;

const CAPACITY: usize = 256;

#[allow(dead_code)]
struct Item<B> { group: u8, number: u64, received: u64, utc: i64, missed: [u64; 4], bytes: B }

#[allow(dead_code)]
struct Inline { len: u16, bytes: [u8; 1472] }

trait Bytes { fn kept(bytes: &[u8]) -> Self; }

impl Bytes for Vec<u8> {
    fn kept(bytes: &[u8]) -> Self { bytes.to_vec() }
}

impl Bytes for Inline {
    fn kept(bytes: &[u8]) -> Self {
        let mut kept = [0; 1472];
        kept[..bytes.len()].copy_from_slice(bytes);
        Inline { len: bytes.len() as u16, bytes: kept }
    }
}

fn pass<B: Bytes + Send>(count: u64) -> u64 {
    let mut datagram = b"UdPbC\0".to_vec();
    datagram.resize(100, b'x');
    let (to, from) = sync_channel(CAPACITY);
    thread::scope(|scope| {
        scope.spawn(move || {
            for number in 0..count {
                to.send(Item { group: 3, number, received: 0, utc: 0, missed: [0; 4], bytes: B::kept(&datagram) }).unwrap();
            }
        });
        let mut arrived = 0;
        for item in from {
            if item.number != arrived { return arrived }
            arrived += 1;
        }
        arrived
    })
}

fn main() {
    let mut words = std::env::args().skip(1);
    let count = words.next().and_then(|word| word.parse().ok()).expect("a number of datagrams");
    let arrived = if words.next().as_deref() == Some("inline") { pass::<Inline>(count) } else { pass::<Vec<u8>>(count) };
    println!("{arrived}");
}
