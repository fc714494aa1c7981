//! Times the proved code beside the Rust, OpenSSL and libgcrypt, and SM4 also beside the same masked scan in plain C. All work on
//! the same buffers, which are not cleared in between. Rounds are short and take turns, and the quickest of each counts, in the
//! processor's time of the thread: what else the machine does weighs little, and on all alike. Before the clock starts, all must
//! agree, byte for byte.
//! usage: noustrel-bench FILE.tsv

mod calls;

use std::hint::black_box;
use std::io::Write;
use std::time::Instant;

use calls::{Room, Run};

const NAMES: [&str; 6] = ["ours", "rust", "openssl", "libgcrypt", "gcc scan", "clang scan"];
/// Seconds that a round of one of them should take, where a single call does not take longer.
const ROUND: f64 = 0.0005;
const ROUNDS: usize = 400;
/// Seconds by the clock for one line of the table, where that is reached before the rounds are.
const LINE: f64 = 8.0;

/// One line: the work, its size, and who does it, in the order of NAMES.
struct Line {
    work: &'static str,
    bytes: usize,
    runs: Vec<Option<Run>>,
}

/// Seconds of each, None where there is none.
type Times = Vec<Option<f64>>;

fn line(work: &'static str, bytes: usize, runs: &[Option<Run>]) -> Line {
    Line { work, bytes, runs: runs.to_vec() }
}

fn lines() -> Vec<Line> {
    let mut all = Vec::new();
    for bytes in [0, 256, 1024, 4096, 16384] {
        all.push(line("seal", bytes, &calls::SEAL));
    }
    for bytes in [0, 256, 1024, 4096, 16384] {
        all.push(line("open", bytes, &calls::OPEN));
    }
    for bytes in [64, 256, 1024, 4096, 16384, 65536] {
        all.push(line("sm3", bytes, &calls::SM3));
    }
    for bytes in [64, 256, 1024, 4096, 16384, 65536] {
        all.push(line("hmac", bytes, &calls::HMAC));
    }
    all.push(line("sm4-key", 16, &calls::SM4_KEY));
    all.push(line("sm4-enc", 16, &calls::SM4_ENC));
    all.push(line("sm4-dec", 16, &calls::SM4_DEC));
    all.push(line("sm4-cbc", 16384, &calls::SM4_CBC));
    all.push(line("key-block", 128, &calls::KEY_BLOCK));
    all
}

/// What is timed is the same work: at this size, and at every one below 100.
fn agree(line: &Line) {
    for size in (0..100).chain([line.bytes]) {
        let mut first = None;
        for (name, run) in NAMES.iter().zip(&line.runs) {
            let Some(run) = run else { continue };
            let mut room = Room::new(size);
            let len = run(&mut room);
            let result = room.out[..len].to_vec();
            let first = first.get_or_insert_with(|| result.clone());
            assert!(result == *first, "{} {size}: {name} differs from ours", line.work);
        }
    }
}

fn seconds(run: Run, count: usize, room: &mut Room) -> f64 {
    let start = calls::now();
    for _ in 0..count {
        black_box(run(black_box(&mut *room)));
    }
    (calls::now() - start) / count as f64
}

/// The quickest time of each, in rounds that take turns.
fn times(line: &Line) -> Times {
    agree(line);
    let mut room = Room::new(line.bytes);
    let mut best: Times = line.runs.iter().map(|run| run.map(|run| seconds(run, 1, &mut room))).collect();
    let begun = Instant::now();
    for round in 0..ROUNDS {
        for (best, run) in best.iter_mut().zip(&line.runs) {
            if let (Some(best), Some(run)) = (best, run) {
                let count = (ROUND / *best).ceil() as usize;
                *best = best.min(seconds(*run, count, &mut room));
            }
        }
        if round > 20 && begun.elapsed().as_secs_f64() > LINE {
            break;
        }
    }
    best
}

/// A block alone is a key and a block, less a key; in CBC, the 1,024th part of a body, less a key.
fn less_key(times: &Times, key: &Times, blocks: f64) -> Times {
    times.iter().zip(key).map(|(t, k)| Some((((*t)? - (*k)?) / blocks).max(1e-12))).collect()
}

/// MB/s, or operations a second where the size means nothing.
fn speed(line: &Line, seconds: f64) -> f64 {
    match line.work {
        "seal" | "open" | "sm3" | "hmac" if line.bytes > 0 => line.bytes as f64 / 1e6 / seconds,
        _ => 1.0 / seconds,
    }
}

fn shown(line: &Line, times: &Times) {
    print!("{:9} {:6}", line.work, line.bytes);
    for (name, t) in NAMES.iter().zip(times) {
        if let Some(t) = t {
            print!("  {name} {:.2}", speed(line, *t));
        }
    }
    let ours = times[0].unwrap();
    print!("  | ours to");
    for (name, t) in NAMES.iter().zip(times).skip(1) {
        if let Some(t) = t {
            print!("  {name} {:.2}", t / ours);
        }
    }
    if matches!(line.work, "seal" | "open") {
        print!("  | {:.2} us", ours * 1e6);
        if line.bytes > 0 {
            print!(", {:.2} ns a byte", ours * 1e9 / line.bytes as f64);
        }
    } else if line.work.starts_with("sm4") {
        let each: Vec<String> = times.iter().flatten().map(|t| format!("{:.3}", t * 1e6)).collect();
        print!("  | us {}", each.join(" "));
    }
    println!();
}

/// A row of the table: empty where there is none.
fn row(line: &Line, times: &Times) -> String {
    let mut row = format!("{}\t{}", line.work, line.bytes);
    for k in 0..4 {
        let cell = times.get(k).copied().flatten().map(|t| format!("{:.3}", speed(line, t)));
        row.push('\t');
        row.push_str(&cell.unwrap_or_default());
    }
    row
}

fn main() {
    let Some(file) = std::env::args().nth(1) else {
        eprintln!("usage: noustrel-bench FILE.tsv");
        std::process::exit(2);
    };
    calls::start();
    calls::check_refusals();
    let mut table = vec!["work\tbytes\tours\trust\topenssl\tlibgcrypt".to_string()];
    let mut key = Times::new();
    println!("MB/s, or operations a second (size 0, sm4, key-block); ours to the others: above 1 ours is quicker");
    for line in lines() {
        let mut found = times(&line);
        match line.work {
            "sm4-key" => key = found.clone(),
            "sm4-enc" | "sm4-dec" => found = less_key(&found, &key, 1.0),
            "sm4-cbc" => found = less_key(&found, &key, 1024.0),
            _ => {}
        }
        shown(&line, &found);
        if line.work != "sm4-cbc" {
            table.push(row(&line, &found));
        }
    }
    for (name, bytes) in calls::stacks() {
        println!("peak stack of opening 16,384 bytes: {name} {bytes}");
    }
    let text = table.join("\n") + "\n";
    let written = std::fs::File::create(&file).and_then(|mut out| out.write_all(text.as_bytes()));
    if let Err(e) = written {
        eprintln!("noustrel-bench: {file}: {e}");
        std::process::exit(1);
    }
}
