// The anchor for turns at a latch: plain Rust, a counter under std's Mutex. `latch PASSES TURNS` lets that many threads lock it that many
// times each, and prints the count.
use std::sync::Mutex;
use std::{env, thread};

fn main() {
    let numbers: Vec<u64> = env::args().skip(1).map(|word| word.parse().expect("a number")).collect();
    let (passes, turns) = (numbers[0], numbers[1]);
    let counter = Mutex::new(0u64);
    thread::scope(|scope| {
        for _ in 0..passes {
            scope.spawn(|| {
                for _ in 0..turns {
                    let mut count = counter.lock().unwrap();
                    *count = count.wrapping_add(1);
                }
            });
        }
    });
    println!("{} turns", counter.into_inner().unwrap());
}
