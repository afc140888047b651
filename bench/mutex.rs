// The same turns at std's Mutex, in plain Rust, for `bench/lock` to compare with: `mutex THREADS TURNS`. A turn adds to a counter and keeps its own count of it.
use std::sync::Mutex;
use std::thread;

fn main() {
    let words: Vec<String> = std::env::args().collect();
    let threads: usize = words[1].parse().unwrap();
    let turns: u64 = words[2].parse().unwrap();
    let counter = Mutex::new(0u64);
    thread::scope(|scope| {
        for _ in 0..threads {
            scope.spawn(|| {
                for _ in 0..turns {
                    *counter.lock().unwrap() += 1;
                }
            });
        }
    });
    println!("{}", counter.into_inner().unwrap());
}
