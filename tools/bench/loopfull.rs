// Baseline for side-by-side timing: what an experienced Rust programmer would write for `rje loop` of a job file of normal text: both ends
// of a loopback connection in one thread. It reads and tests the jobs, cuts them into blocks, writes, sends, hears, checks and unpacks each,
// answers it, and holds what came. It says nothing twice and takes no fault: whatever goes wrong, it stops.
// Build: rustc --edition 2021 -O -C target-cpu=x86-64 loopfull.rs. Words: loop JOBS.
#[path = "jobs.rs"]
#[allow(dead_code)]
mod jobs;
#[path = "texts.rs"]
#[allow(dead_code)]
mod texts;

use jobs::{fits, read_jobs};
use std::io::{Read, Write};
use std::net::{TcpListener, TcpStream};
use texts::{frame, heard, spell, table, unpack};

fn pass(from: &mut TcpStream, to: &mut TcpStream, bytes: &[u8], got: &mut [u8]) -> usize {
    from.write_all(bytes).unwrap();
    let mut have = 0;
    while have < bytes.len() {
        have += to.read(&mut got[have..]).unwrap();
    }
    have
}

/// Both ends of the connection, and room for what is in hand.
struct Ends {
    table: [u16; 256],
    near: TcpStream,
    far: TcpStream,
    line: Vec<u8>,
    heard: [u8; 1100],
    text: Vec<u8>,
}

impl Ends {
    fn new() -> Self {
        let listener = TcpListener::bind("127.0.0.1:0").unwrap();
        let near = TcpStream::connect(listener.local_addr().unwrap()).unwrap();
        let (far, _) = listener.accept().unwrap();
        near.set_nodelay(true).unwrap();
        far.set_nodelay(true).unwrap();
        Ends { table: table(), near, far, line: Vec::new(), heard: [0; 1100], text: Vec::new() }
    }

    fn say(&mut self, bytes: &[u8]) {
        pass(&mut self.near, &mut self.far, bytes, &mut self.heard);
    }

    fn reply(&mut self) {
        pass(&mut self.far, &mut self.near, b"\x32\x32\x10\x70\xFF", &mut self.heard);
    }

    /// Sends a block, and puts the records that came after those that were there.
    fn send(&mut self, text: &[u8], closing: u8, records: &mut Vec<Vec<u8>>) {
        frame(&self.table, text, closing, &mut self.line);
        let count = pass(&mut self.near, &mut self.far, &self.line, &mut self.heard);
        assert!(heard(&self.table, &self.heard[..count], &mut self.text) == Some(closing));
        unpack(&self.text, records).unwrap();
        self.reply();
    }
}

fn main() {
    let bytes = std::fs::read(std::env::args().nth(2).unwrap()).unwrap();
    let jobs = read_jobs(&bytes).unwrap();
    assert!(jobs.iter().all(fits));
    let mut ends = Ends::new();
    let mut handed: Vec<Vec<Vec<u8>>> = Vec::new();
    ends.say(b"\x32\x32\x2D\xFF");
    ends.reply();
    let (mut text, mut next) = (Vec::new(), Vec::new());
    for job in &jobs {
        let mut records: Vec<Vec<u8>> = Vec::new();
        text.clear();
        for record in &job.records {
            next.clear();
            spell(&record.bytes, &mut next);
            if text.len() + next.len() > 510 {
                ends.send(&text, 0x26, &mut records);
                text.clear();
            }
            text.extend_from_slice(&next);
        }
        ends.send(&text, 0x03, &mut records);
        assert!(records.len() == job.records.len());
        handed.push(records);
    }
    ends.say(b"\x32\x32\x37\xFF");
    println!("counted {0} of {0} jobs\nhanded {0} jobs, {0} whole\noutcome done", handed.len());
}
