// Baseline for side-by-side timing: what plain Rust needs to cut one job into blocks, frame and check them, find them again in their
// bytes, and unpack them; with the bids and answers between. Build: rustc --edition 2021 -O -C target-cpu=x86-64 stations.rs.
#[path = "texts.rs"]
#[allow(dead_code)]
mod texts;

use std::time::Instant;
use texts::{frame, heard, spell, table, unpack};

fn byte_at(record: u32, column: u32) -> u8 {
    if record.wrapping_add(column) % 7 == 0 {
        0x40
    } else {
        0xC1 + (record.wrapping_mul(column) % 9) as u8
    }
}

fn main() {
    let table = table();
    for count in [10_000u32, 40_000, 160_000] {
        let job: Vec<Vec<u8>> = (0..count).map(|i| (0..80).map(|j| byte_at(i, j)).collect()).collect();
        let start = Instant::now();
        let mut records = Vec::new();
        let (mut text, mut next, mut line, mut got) = (Vec::new(), Vec::new(), Vec::new(), Vec::new());
        let mut turns = 2;
        let mut send = |text: &[u8], closing: u8| {
            turns += 1;
            frame(&table, text, closing, &mut line);
            assert!(heard(&table, &line, &mut got) == Some(closing));
            unpack(&got, &mut records).unwrap();
        };
        for record in &job {
            next.clear();
            spell(record, &mut next);
            if text.len() + next.len() > 510 {
                send(&text, 0x26);
                text.clear();
            }
            text.extend_from_slice(&next);
        }
        send(&text, 0x03);
        let micros = start.elapsed().as_micros();
        let sum: u64 = records.iter().flatten().map(|b| u64::from(*b)).sum();
        println!("{count} {turns} 1 {} {sum} {micros}", records.len());
    }
}
