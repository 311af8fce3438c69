// Baseline for side-by-side timing: what an experienced Rust programmer would write for `rje cards`, `show`, `check` and `print`.
// Build: rustc --edition 2021 -O -C target-cpu=x86-64 jobs.rs. Words: cards DECK JOBS, show JOBS, check JOBS, print JOBS.
use std::io::{self, Write};
use std::{env, fs, process};

fn tables() -> ([u8; 256], [u8; 256]) {
    let mut to_ebcdic = [0u8; 256];
    let pairs: &[(&str, u8)] = &[
        (" ", 0x40), ("ABCDEFGHI", 0xC1), ("JKLMNOPQR", 0xD1), ("STUVWXYZ", 0xE2),
        ("abcdefghi", 0x81), ("jklmnopqr", 0x91), ("stuvwxyz", 0xA2), ("0123456789", 0xF0),
        ("!", 0x5A), ("\"", 0x7F), ("#", 0x7B), ("$", 0x5B), ("%", 0x6C), ("&", 0x50), ("'", 0x7D),
        ("(", 0x4D), (")", 0x5D), ("*", 0x5C), ("+", 0x4E), (",", 0x6B), ("-", 0x60), (".", 0x4B),
        ("/", 0x61), (":", 0x7A), (";", 0x5E), ("<", 0x4C), ("=", 0x7E), (">", 0x6E), ("?", 0x6F),
        ("@", 0x7C), ("[", 0xBA), ("\\", 0xE0), ("]", 0xBB), ("^", 0xB0), ("_", 0x6D), ("`", 0x79),
        ("{", 0xC0), ("|", 0x4F), ("}", 0xD0), ("~", 0xA1),
    ];
    let mut to_ascii = [b'?'; 256];
    for (chars, first) in pairs {
        for (i, c) in chars.bytes().enumerate() {
            to_ebcdic[c as usize] = first + i as u8;
            to_ascii[(first + i as u8) as usize] = c;
        }
    }
    (to_ebcdic, to_ascii)
}

pub struct Record {
    pub action: u8,
    pub bytes: Vec<u8>,
}

const STATES: [&str; 4] = ["waiting", "sent", "whole", "cut"];

pub struct Job {
    name: [u8; 8],
    state: u8,
    select: u8,
    mode: u8,
    pub records: Vec<Record>,
}

fn lines(deck: &[u8]) -> impl Iterator<Item = &[u8]> {
    deck.split_inclusive(|b| *b == b'\n').map(|line| {
        let line = line.strip_suffix(b"\n").unwrap_or(line);
        line.strip_suffix(b"\r").unwrap_or(line)
    })
}

fn job_of_deck(deck: &[u8]) -> Result<Job, String> {
    let (to_ebcdic, _) = tables();
    let mut records = Vec::new();
    for (i, line) in lines(deck).enumerate() {
        if line.len() > 80 {
            return Err(format!("deck line {}: more than 80 columns", i + 1));
        }
        if let Some(k) = line.iter().position(|c| to_ebcdic[*c as usize] == 0) {
            return Err(format!("deck line {} column {}: no EBCDIC character", i + 1, k + 1));
        }
        records.push(Record { action: 0, bytes: line.iter().map(|c| to_ebcdic[*c as usize]).collect() });
    }
    Ok(Job { name: [b' '; 8], state: 0, select: 0, mode: 0, records })
}

fn write_jobs(jobs: &[Job]) -> Vec<u8> {
    let mut out = b"RJ37\x00\x02".to_vec();
    out.extend_from_slice(&(jobs.len() as u64).to_be_bytes());
    for job in jobs {
        out.extend_from_slice(&job.name);
        out.extend_from_slice(&[job.state, job.select, job.mode]);
        out.extend_from_slice(&(job.records.len() as u64).to_be_bytes());
        for record in &job.records {
            out.extend_from_slice(&[record.action, record.bytes.len() as u8]);
            out.extend_from_slice(&record.bytes);
        }
    }
    out
}

fn is_action(byte: u8) -> bool {
    matches!(byte, 0 | 0x61 | 0xE2 | 0xE3 | 0xD4 | 0xC1..=0xC9 | 0xD1..=0xD3)
}

fn is_name(name: &[u8]) -> bool {
    let end = name.iter().position(|c| *c == b' ').unwrap_or(name.len());
    name[..end].iter().all(|c| c.is_ascii_uppercase() || c.is_ascii_digit()) && name[end..].iter().all(|c| *c == b' ')
}

pub fn read_jobs(bytes: &[u8]) -> Option<Vec<Job>> {
    fn number(bytes: &mut &[u8]) -> Option<u64> {
        let (front, rest) = bytes.split_at_checked(8)?;
        *bytes = rest;
        Some(u64::from_be_bytes(front.try_into().ok()?))
    }
    let mut rest = bytes.strip_prefix(b"RJ37\x00\x02")?;
    let count = number(&mut rest)?;
    let mut jobs = Vec::new();
    for _ in 0..count {
        let (&name, more) = rest.split_first_chunk::<8>()?;
        let (&[state, select, mode], more) = more.split_first_chunk::<3>()?;
        if !is_name(&name) || state > 3 || select > 2 || mode > 1 {
            return None;
        }
        rest = more;
        let mut records = Vec::new();
        for _ in 0..number(&mut rest)? {
            let (&[action, length], more) = rest.split_first_chunk::<2>()?;
            if !is_action(action) || length > 144 {
                return None;
            }
            let (data, more) = more.split_at_checked(length as usize)?;
            records.push(Record { action, bytes: data.to_vec() });
            rest = more;
        }
        jobs.push(Job { name, state, select, mode, records });
    }
    rest.is_empty().then_some(jobs)
}

pub fn fits(job: &Job) -> bool {
    job.state != 3
        && (job.mode == 0 || job.select == 2)
        && job.records.iter().all(|r| {
            if job.mode == 1 {
                r.bytes.len() == 80 && r.action == 0
            } else {
                r.bytes.iter().all(|b| (0x40..=0xFE).contains(b)) && (job.select != 2 || (r.bytes.len() <= 80 && r.action == 0))
            }
        })
}

fn print(jobs: &[Job]) -> Vec<u8> {
    let (_, to_ascii) = tables();
    let mut out = Vec::new();
    for job in jobs {
        for record in &job.records {
            out.extend(record.bytes.iter().map(|b| to_ascii[*b as usize]));
            if job.select == 2 {
                out.push(b'\n');
                continue;
            }
            match record.action {
                0 | 0x61 => out.push(b'\n'),
                0xE2 => out.extend_from_slice(b"\n\n"),
                0xE3 => out.extend_from_slice(b"\n\n\n"),
                0xD4 => out.push(b'\r'),
                0xC1 => out.extend_from_slice(b"\n\x0C"),
                n @ 0xC2..=0xC9 => out.extend_from_slice(format!("\n[channel {}]\n", n - 0xC0).as_bytes()),
                n => out.extend_from_slice(format!("\n[channel {}]\n", n - 0xD0 + 9).as_bytes()),
            }
        }
    }
    out
}

fn run(words: &[String]) -> Result<Vec<u8>, String> {
    let read = |name: &String| fs::read(name).map_err(|_| format!("can't read {name}"));
    if words[0] == "cards" {
        let job = job_of_deck(&read(&words[1])?)?;
        let count = job.records.len();
        fs::write(&words[2], write_jobs(&[job])).map_err(|_| format!("can't write {}", words[2]))?;
        return Ok(format!("{count} cards\n").into_bytes());
    }
    let jobs = read_jobs(&read(&words[1])?).ok_or("not a job file")?;
    match words[0].as_str() {
        "show" => {
            let mut text = String::new();
            for (i, job) in jobs.iter().enumerate() {
                let select = ["unset", "printer", "punch"][job.select as usize];
                let mode = ["normal", "transparent"][job.mode as usize];
                let state = STATES[job.state as usize];
                let line = format!("{} {select} {mode} {state} {} records {}", i + 1, job.records.len(), String::from_utf8_lossy(&job.name));
                text += line.trim_end();
                text.push('\n');
            }
            Ok(text.into_bytes())
        }
        "check" => match jobs.iter().position(|job| !fits(job)) {
            Some(i) => Err(format!("job {} can't be sent", i + 1)),
            None => Ok(format!("good {} jobs\n", jobs.len()).into_bytes()),
        },
        _ => Ok(print(&jobs)),
    }
}

fn main() {
    let words: Vec<String> = env::args().skip(1).collect();
    match run(&words) {
        Ok(text) => io::stdout().write_all(&text).unwrap(),
        Err(fault) => {
            eprintln!("rje: {fault}");
            process::exit(1);
        }
    }
}
