// Baseline for side-by-side timing: both ends of a loopback connection in one thread, which exchange messages turn by turn and do nothing
// else: the limit of the line discipline. Reads the sizes of the blocks' texts from standard input, a number a line; each block has 9 bytes
// more on the line, and each answer 5. Build: rustc --edition 2021 -O -C target-cpu=x86-64 loop.rs.
use std::io::{self, Read, Write};
use std::net::{TcpListener, TcpStream};

fn pass(from: &mut TcpStream, to: &mut TcpStream, bytes: &[u8], got: &mut [u8]) -> io::Result<()> {
    from.write_all(bytes)?;
    let mut have = 0;
    while have < bytes.len() {
        let n = to.read(&mut got[have..])?;
        if n == 0 {
            return Err(io::ErrorKind::UnexpectedEof.into());
        }
        have += n;
    }
    Ok(())
}

fn main() -> io::Result<()> {
    let mut text = String::new();
    io::stdin().read_to_string(&mut text)?;
    let listener = TcpListener::bind("127.0.0.1:0")?;
    let mut near = TcpStream::connect(listener.local_addr()?)?;
    let (mut far, _) = listener.accept()?;
    near.set_nodelay(true)?;
    far.set_nodelay(true)?;
    let block = [0xC1u8; 1033];
    let mut got = [0u8; 1033];
    pass(&mut near, &mut far, &block[..4], &mut got)?;
    pass(&mut far, &mut near, &block[..5], &mut got)?;
    let mut turns = 2;
    for size in text.lines() {
        let size: usize = size.parse().map_err(|_| io::ErrorKind::InvalidInput)?;
        pass(&mut near, &mut far, &block[..size + 9], &mut got)?;
        pass(&mut far, &mut near, &block[..5], &mut got)?;
        turns += 1;
    }
    pass(&mut near, &mut far, &block[..4], &mut got)?;
    println!("{turns} turns");
    Ok(())
}
