//! One hold of a plain mutex: plain_mutex CLIENTS CALLS own|one
//!
//! Each client is a thread that makes so many calls, each of which takes the lock of an array of
//! pages, copies one byte of its first page and gives the lock back. `own` gives each client an
//! array of its own, `one` all the same. Prints the nanoseconds of a call.
use std::hint::black_box;
use std::sync::{Arc, Mutex};
use std::thread;
use std::time::Instant;

type Pages = Arc<Mutex<Vec<[u8; 4096]>>>;

fn calls(pages: &Pages, calls: usize) {
    let mut out = [0u8; 1];
    for _ in 0..calls {
        let held = pages.lock().unwrap();
        out.copy_from_slice(&held[0][..1]);
        black_box(&out);
    }
}

fn main() {
    let words: Vec<String> = std::env::args().collect();
    let clients: usize = words[1].parse().unwrap();
    let count: usize = words[2].parse().unwrap();
    let one: Pages = Arc::new(Mutex::new(vec![[0; 4096]; 4]));
    let began = Instant::now();
    let threads: Vec<_> = (0..clients)
        .map(|_| match words[3].as_str() {
            "own" => Arc::new(Mutex::new(vec![[0; 4096]; 4])),
            _ => one.clone(),
        })
        .map(|pages| thread::spawn(move || calls(&pages, count)))
        .collect();
    for thread in threads {
        thread.join().unwrap();
    }
    let calls = (clients * count) as f64;
    println!("{}", began.elapsed().as_secs_f64() * 1e9 / calls);
}
