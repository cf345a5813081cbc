//! The calls of a generated script over something else: peer_calls PLACE CLIENTS CALLS FILES PAGES
//!
//! Each client is a thread. It makes its part of the calls as `spring gen` has them: four bytes at a
//! place that it draws, of one of the files, in a page of its own; it reads them, and in each fourth
//! of its calls it writes. PLACE is a folder in which the files are made, read by `pread` and written
//! by `pwrite`; or `array`, for arrays of pages under one mutex each. Prints the seconds of the calls.
use std::fs::{File, OpenOptions};
use std::hint::black_box;
use std::os::unix::fs::FileExt;
use std::path::Path;
use std::sync::{Arc, Barrier, Mutex};
use std::thread;
use std::time::Instant;

const PAGE: u64 = 4096;

enum Place {
    Array(Arc<Mutex<Vec<u8>>>),
    Host(File),
}

impl Place {
    fn read(&self, at: u64, out: &mut [u8; 4]) {
        match self {
            Place::Array(bytes) => {
                let held = bytes.lock().unwrap();
                out.copy_from_slice(&held[at as usize..at as usize + 4]);
            }
            Place::Host(file) => file.read_exact_at(out, at).unwrap(),
        }
    }

    fn write(&self, at: u64, bytes: &[u8; 4]) {
        match self {
            Place::Array(held) => {
                let mut held = held.lock().unwrap();
                held[at as usize..at as usize + 4].copy_from_slice(bytes);
            }
            Place::Host(file) => file.write_all_at(bytes, at).unwrap(),
        }
    }
}

/// The next draw below a bound.
fn draw(state: &mut u64, below: u64) -> u64 {
    *state = state.wrapping_mul(6364136223846793005).wrapping_add(1442695040888963407);
    (*state >> 33) % below
}

fn calls(files: &[Place], client: u64, count: u64, pages: u64) {
    let mut state = client + 1;
    let own = (pages - client + 7) / 8;
    for number in 0..count {
        let file = &files[draw(&mut state, files.len() as u64) as usize];
        let page = client + 8 * draw(&mut state, own);
        let at = page * PAGE + 4 * draw(&mut state, PAGE / 4);
        if number % 4 == 3 {
            file.write(at, &(number as u32).to_be_bytes());
        } else {
            let mut out = [0; 4];
            file.read(at, &mut out);
            black_box(&out);
        }
    }
}

fn open(place: &str, number: u64, pages: u64) -> Place {
    let options = OpenOptions::new().read(true).write(true).create(true).clone();
    let file = options.open(Path::new(place).join(format!("f{number}"))).unwrap();
    file.set_len(pages * PAGE).unwrap();
    Place::Host(file)
}

fn main() {
    let words: Vec<String> = std::env::args().collect();
    let numbers: Vec<u64> = words[2..].iter().map(|word| word.parse().unwrap()).collect();
    let [clients, count, files, pages] = numbers[..] else {
        panic!("peer_calls PLACE CLIENTS CALLS FILES PAGES");
    };
    let arrays: Vec<_> =
        (0..files).map(|_| Arc::new(Mutex::new(vec![0u8; (pages * PAGE) as usize]))).collect();
    let ready = Arc::new(Barrier::new(clients as usize + 1));
    let threads: Vec<_> = (0..clients)
        .map(|client| {
            let files: Vec<Place> = (0..files)
                .map(|number| match words[1].as_str() {
                    "array" => Place::Array(arrays[number as usize].clone()),
                    place => open(place, number, pages),
                })
                .collect();
            let ready = ready.clone();
            thread::spawn(move || {
                ready.wait();
                ready.wait();
                calls(&files, client, count / clients, pages);
            })
        })
        .collect();
    // All are there before the clock starts, and none begins before it.
    ready.wait();
    let began = Instant::now();
    ready.wait();
    for thread in threads {
        thread.join().unwrap();
    }
    println!("{}", began.elapsed().as_secs_f64());
}
