// Baseline for side-by-side timing: what an experienced Rust programmer would write for the check and the listener.
// Build: rustc -O -C target-cpu=x86-64 frames.rs. Reads the line's bytes on stdin, prints the check and the microseconds that it took,
// then what was heard and the microseconds that took.
use std::io::{self, Read};
use std::time::Instant;

const STX: u8 = 0x02;
const ETX: u8 = 0x03;
const DLE: u8 = 0x10;
const ETB: u8 = 0x26;
const ENQ: u8 = 0x2D;
const SYN: u8 = 0x32;
const EOT: u8 = 0x37;
const NAK: u8 = 0x3D;

const fn table() -> [u16; 256] {
    let mut table = [0u16; 256];
    let mut i = 0;
    while i < 256 {
        let mut c = i as u16;
        let mut k = 0;
        while k < 8 {
            c = if c & 1 == 1 { (c >> 1) ^ 0xA001 } else { c >> 1 };
            k += 1;
        }
        table[i] = c;
        i += 1;
    }
    table
}

static TABLE: [u16; 256] = table();

#[derive(Clone, Copy, Default)]
struct Check(u16);

impl Check {
    fn add(&mut self, byte: u8) {
        self.0 = (self.0 >> 8) ^ TABLE[usize::from(self.0 as u8 ^ byte)];
    }

    fn add_all(&mut self, bytes: &[u8]) {
        for &byte in bytes {
            self.add(byte);
        }
    }

    fn bytes(self) -> [u8; 2] {
        self.0.to_le_bytes()
    }
}

#[derive(Clone, Copy, Debug)]
enum Closing {
    Etb,
    Etx,
}

#[allow(dead_code)]
struct Block {
    text: [u8; 512],
    len: usize,
    closing: Closing,
    transparent: bool,
}

enum Frame {
    Enq,
    Ack0,
    Ack1,
    Nak,
    Wack,
    Rvi,
    Ttd,
    Abort,
    Eot,
    Block(Block),
}

#[derive(Clone, Copy, Debug)]
enum Heard {
    Bad,
    Noise,
    Quiet,
}

#[derive(Clone, Copy)]
enum State {
    Pads,
    OneSyn,
    Syns,
    Dle,
    Text,
    Transparent,
    TextDle,
    Check(bool, Closing),
    SecondCheck(bool, Closing, u8),
    BadText,
    OnlyPads,
    OnlyNoise,
}

struct Listener {
    state: State,
    text: [u8; 512],
    len: usize,
    check: Check,
}

fn no_sync(byte: u8) -> State {
    if matches!(byte, 0xFF | 0x55 | SYN) { State::OnlyPads } else { State::OnlyNoise }
}

impl Listener {
    fn new() -> Self {
        Listener { state: State::Pads, text: [0; 512], len: 0, check: Check::default() }
    }

    fn start(&mut self, state: State) {
        self.len = 0;
        self.check = Check::default();
        self.state = state;
    }

    fn keep(&mut self, byte: u8, state: State) {
        if self.len < 512 {
            self.text[self.len] = byte;
            self.len += 1;
            self.check.add(byte);
            self.state = state;
        } else {
            self.state = State::BadText;
        }
    }

    fn close(&mut self, transparent: bool, closing: Closing) {
        self.check.add(match closing {
            Closing::Etb => ETB,
            Closing::Etx => ETX,
        });
        self.state = State::Check(transparent, closing);
    }

    #[inline(always)]
    fn step(&mut self, byte: u8) -> Option<Frame> {
        match self.state {
            State::Pads => {
                self.state = match byte {
                    SYN => State::OneSyn,
                    0xFF | 0x55 => State::Pads,
                    _ => State::OnlyNoise,
                }
            }
            State::OneSyn => self.state = if byte == SYN { State::Syns } else { no_sync(byte) },
            State::Syns => match byte {
                SYN => {}
                STX => self.start(State::Text),
                DLE => self.state = State::Dle,
                ENQ => return Some(Frame::Enq),
                NAK => return Some(Frame::Nak),
                EOT => return Some(Frame::Eot),
                _ => self.state = no_sync(byte),
            },
            State::Dle => match byte {
                STX => self.start(State::Transparent),
                0x70 => return Some(Frame::Ack0),
                0x61 => return Some(Frame::Ack1),
                0x6B => return Some(Frame::Wack),
                0x7C => return Some(Frame::Rvi),
                EOT => return Some(Frame::Eot),
                _ => self.state = State::OnlyNoise,
            },
            State::Text => match byte {
                SYN => {}
                ENQ => return Some(if self.len == 0 { Frame::Ttd } else { Frame::Abort }),
                ETB => self.close(false, Closing::Etb),
                ETX => self.close(false, Closing::Etx),
                0x01 | STX | DLE | 0x1F | EOT | NAK => self.state = State::BadText,
                _ => self.keep(byte, State::Text),
            },
            State::Transparent => {
                if byte == DLE {
                    self.state = State::TextDle;
                } else {
                    self.keep(byte, State::Transparent);
                }
            }
            State::TextDle => match byte {
                DLE => self.keep(byte, State::Transparent),
                SYN => self.state = State::Transparent,
                ENQ => return Some(Frame::Abort),
                ETB => self.close(true, Closing::Etb),
                ETX => self.close(true, Closing::Etx),
                _ => self.state = State::BadText,
            },
            State::Check(transparent, closing) => {
                self.state = State::SecondCheck(transparent, closing, byte)
            }
            State::SecondCheck(transparent, closing, first) => {
                if self.check.bytes() == [first, byte] {
                    return Some(Frame::Block(Block {
                        text: self.text,
                        len: self.len,
                        closing,
                        transparent,
                    }));
                }
                self.state = State::BadText;
            }
            State::BadText | State::OnlyNoise => {}
            State::OnlyPads => self.state = no_sync(byte),
        }
        None
    }

    fn feed(&mut self, piece: &[u8]) -> (usize, Option<Frame>) {
        for (i, &byte) in piece.iter().enumerate() {
            if let Some(frame) = self.step(byte) {
                self.state = State::Pads;
                return (i + 1, Some(frame));
            }
        }
        (piece.len(), None)
    }

    fn quiet(&mut self) -> Heard {
        let heard = match self.state {
            State::Pads | State::OneSyn | State::Syns | State::OnlyPads => Heard::Quiet,
            State::Dle | State::OnlyNoise => Heard::Noise,
            _ => Heard::Bad,
        };
        self.state = State::Pads;
        heard
    }
}

fn main() -> io::Result<()> {
    let mut input = Vec::new();
    io::stdin().read_to_end(&mut input)?;

    let start = Instant::now();
    let mut check = Check::default();
    check.add_all(&input);
    let [first, second] = check.bytes();
    let micros = start.elapsed().as_micros();
    println!("check {first:02X} {second:02X} {micros}");

    let start = Instant::now();
    let (mut frames, mut blocks, mut bytes) = (0u64, 0u64, 0u64);
    let mut listener = Listener::new();
    for piece in input.chunks(512) {
        let mut rest = piece;
        while !rest.is_empty() {
            let (used, frame) = listener.feed(rest);
            rest = &rest[used..];
            if let Some(frame) = frame {
                frames += 1;
                if let Frame::Block(block) = frame {
                    blocks += 1;
                    bytes += block.len as u64;
                }
            }
        }
    }
    let quiet = listener.quiet();
    let micros = start.elapsed().as_micros();
    println!("heard {frames} {blocks} {bytes} {quiet:?} {micros}");
    Ok(())
}
