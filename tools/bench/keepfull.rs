// Baseline for side-by-side timing: what an experienced Rust programmer would write for `rje send` and `rje receive` of a job file of normal
// text, with every job on disk before its last block is answered, and marked at the sender as soon as it is counted. The received file is whole
// at every moment: two copies of it take turns, and the older one is brought up to date, put on disk and renamed over the file. Each end has its
// file for itself, by a lock. It says nothing twice and takes no fault: whatever goes wrong, it stops.
// Build: rustc --edition 2021 -O -C target-cpu=x86-64 keepfull.rs. Words: send JOBS --to ADDR, receive JOBS --listen ADDR.
#[path = "jobs.rs"]
#[allow(dead_code)]
mod jobs;
#[path = "texts.rs"]
#[allow(dead_code)]
mod texts;

use jobs::{fits, read_jobs};
use std::fs::{self, File, OpenOptions};
use std::io::{self, Read, Seek, SeekFrom, Write};
use std::net::{TcpListener, TcpStream};
use std::os::unix::fs::FileExt;
use std::path::{Path, PathBuf};
use texts::{frame, heard, spell, table, unpack};

const ACKNOWLEDGEMENTS: [&[u8]; 2] = [b"\x32\x32\x10\x70\xFF", b"\x32\x32\x10\x61\xFF"];
const ENQ: &[u8] = b"\x32\x32\x2D\xFF";
const EOT: &[u8] = b"\x32\x32\x37\xFF";
const HEADER: u64 = 14;

fn folder_of(path: &Path) -> File {
    let folder = path.parent().filter(|it| !it.as_os_str().is_empty());
    File::open(folder.unwrap_or(Path::new("."))).unwrap()
}

/// A new file beside this one.
fn beside(path: &Path, number: u32) -> (File, PathBuf) {
    let path = PathBuf::from(format!("{}.{number}", path.display()));
    let file = OpenOptions::new().read(true).write(true).create_new(true).open(&path).unwrap();
    (file, path)
}

/// Puts a file of these bytes in the place of this one, on disk.
fn replace(path: &Path, bytes: &[u8]) -> File {
    let (mut file, new) = beside(path, 0);
    file.write_all(bytes).unwrap();
    file.sync_all().unwrap();
    fs::rename(new, path).unwrap();
    folder_of(path).sync_all().unwrap();
    file
}

/// The file of this path, locked as long as it is open.
fn locked(path: &Path) -> File {
    let file = OpenOptions::new().read(true).write(true).open(path).unwrap();
    file.try_lock().unwrap();
    file
}

/// A job file that grows by a job at a time.
struct Keeping {
    path: PathBuf,
    folder: File,
    lock: Option<File>,
    newest: File,
    older: Option<(File, PathBuf, u64)>,
    len: u64,
    jobs: u64,
}

impl Keeping {
    fn new(path: &Path) -> Self {
        let newest = replace(path, &[b"RJ37\0\x02".as_slice(), &0u64.to_be_bytes()].concat());
        Keeping { path: path.into(), folder: folder_of(path), lock: Some(locked(path)), newest, older: None, len: HEADER, jobs: 0 }
    }

    /// The file with one more entry.
    fn add(&mut self, entry: &[u8]) {
        let number = 1 + (self.jobs % 2) as u32;
        let (mut file, name, place) = self.older.take().unwrap_or_else(|| {
            let (file, name) = beside(&self.path, 0);
            (file, name, 0)
        });
        self.newest.seek(SeekFrom::Start(place)).unwrap();
        file.seek(SeekFrom::Start(place)).unwrap();
        io::copy(&mut self.newest, &mut file).unwrap();
        file.write_all(entry).unwrap();
        self.jobs += 1;
        file.write_all_at(&self.jobs.to_be_bytes(), HEADER - 8).unwrap();
        file.sync_all().unwrap();
        let second = PathBuf::from(format!("{}.{number}", self.path.display()));
        fs::hard_link(&self.path, &second).unwrap();
        fs::rename(name, &self.path).unwrap();
        self.folder.sync_all().unwrap();
        self.lock = None;
        self.lock = Some(locked(&self.path));
        let newest = std::mem::replace(&mut self.newest, file);
        self.older = Some((newest, second, self.len));
        self.len += entry.len() as u64;
    }

    fn finish(self) {
        if let Some((_, path, _)) = self.older {
            fs::remove_file(path).unwrap();
        }
    }
}

/// One end of a connection, and room for what is in hand.
struct End {
    table: [u16; 256],
    stream: TcpStream,
    line: Vec<u8>,
    heard: [u8; 1100],
}

impl End {
    fn new(stream: TcpStream) -> Self {
        stream.set_nodelay(true).unwrap();
        End { table: table(), stream, line: Vec::new(), heard: [0; 1100] }
    }

    fn expect(&mut self, wanted: &[u8]) {
        self.stream.read_exact(&mut self.heard[..wanted.len()]).unwrap();
        assert!(&self.heard[..wanted.len()] == wanted);
    }

    /// Sends a block, and waits for the answer to it.
    fn send(&mut self, text: &[u8], closing: u8, number: usize) {
        frame(&self.table, text, closing, &mut self.line);
        self.stream.write_all(&self.line).unwrap();
        self.expect(ACKNOWLEDGEMENTS[number % 2]);
    }

    /// Hears a transmission, as many bytes as come until one ends in a pad that ends a frame. The closing of a block; none for EOT.
    fn hear(&mut self, text: &mut Vec<u8>) -> Option<u8> {
        let mut have = 0;
        loop {
            let count = self.stream.read(&mut self.heard[have..]).unwrap();
            assert!(count > 0);
            have += count;
            let line = &self.heard[..have];
            if line == EOT {
                return None;
            }
            if line.ends_with(b"\xFF") {
                if let Some(closing) = heard(&self.table, line, text) {
                    return Some(closing);
                }
            }
        }
    }
}

fn send(path: &Path, address: &str) {
    let bytes = fs::read(path).unwrap();
    let jobs = read_jobs(&bytes).unwrap();
    assert!(jobs.iter().all(fits));
    let file = replace(path, &bytes);
    let _lock = locked(path);
    let mut end = End::new(TcpStream::connect(address).unwrap());
    end.stream.write_all(ENQ).unwrap();
    end.expect(ACKNOWLEDGEMENTS[0]);
    let (mut text, mut next) = (Vec::new(), Vec::new());
    let (mut number, mut place) = (1, HEADER);
    for job in &jobs {
        text.clear();
        for record in &job.records {
            next.clear();
            spell(&record.bytes, &mut next);
            if text.len() + next.len() > 510 {
                end.send(&text, 0x26, number);
                number += 1;
                text.clear();
            }
            text.extend_from_slice(&next);
        }
        end.send(&text, 0x03, number);
        number += 1;
        file.write_all_at(&[1], place + 8).unwrap();
        file.sync_data().unwrap();
        place += 19 + job.records.iter().map(|record| 2 + record.bytes.len() as u64).sum::<u64>();
    }
    end.stream.write_all(EOT).unwrap();
    println!("counted {0} of {0} jobs\noutcome done", jobs.len());
}

fn receive(path: &Path, address: &str) {
    let mut keeping = Keeping::new(path);
    let listener = TcpListener::bind(address).unwrap();
    let mut end = End::new(listener.accept().unwrap().0);
    end.expect(ENQ);
    end.stream.write_all(ACKNOWLEDGEMENTS[0]).unwrap();
    let (mut text, mut records, mut entry) = (Vec::new(), Vec::new(), Vec::new());
    let mut handed: Vec<Vec<Vec<u8>>> = Vec::new();
    let mut number = 1;
    while let Some(closing) = end.hear(&mut text) {
        unpack(&text, &mut records).unwrap();
        if closing == 0x03 {
            entry.clear();
            // (without a name, whole, for neither printer nor punch, in normal text)
            entry.extend_from_slice(b"        \x02\x00\x00");
            entry.extend_from_slice(&(records.len() as u64).to_be_bytes());
            for record in &records {
                entry.extend_from_slice(&[0, record.len() as u8]);
                entry.extend_from_slice(record);
            }
            keeping.add(&entry);
            handed.push(std::mem::take(&mut records));
        }
        end.stream.write_all(ACKNOWLEDGEMENTS[number % 2]).unwrap();
        number += 1;
    }
    keeping.finish();
    println!("handed {0} jobs, {0} whole", handed.len());
}

fn main() {
    let words: Vec<String> = std::env::args().skip(1).collect();
    match words.iter().map(String::as_str).collect::<Vec<_>>()[..] {
        ["send", path, "--to", address] => send(Path::new(path), address),
        ["receive", path, "--listen", address] => receive(Path::new(path), address),
        _ => panic!("send JOBS --to ADDR, or receive JOBS --listen ADDR"),
    }
}
