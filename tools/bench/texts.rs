// What the baselines share: the check by one table, a record spelled into a text, a block framed, and heard in bytes, its text unpacked.
pub fn table() -> [u16; 256] {
    let mut table = [0u16; 256];
    for (i, entry) in table.iter_mut().enumerate() {
        let mut register = i as u16;
        for _ in 0..8 {
            register = if register & 1 == 1 { (register >> 1) ^ 0xA001 } else { register >> 1 };
        }
        *entry = register;
    }
    table
}

pub fn check(table: &[u16; 256], bytes: &[u8], closing: u8) -> u16 {
    let step = |register: u16, byte: u8| (register >> 8) ^ table[usize::from((register as u8) ^ byte)];
    step(bytes.iter().fold(0, |register, byte| step(register, *byte)), closing)
}

pub fn spell(record: &[u8], out: &mut Vec<u8>) {
    let mut i = 0;
    while i < record.len() {
        if record[i] != 0x40 {
            out.push(record[i]);
            i += 1;
            continue;
        }
        let start = i;
        while i < record.len() && record[i] == 0x40 {
            i += 1;
        }
        let mut run = i - start;
        while run >= 63 {
            out.extend_from_slice(&[0x1D, 0x7F]);
            run -= 63;
        }
        match run {
            0 => {}
            1 => out.push(0x40),
            r => out.extend_from_slice(&[0x1D, 0x40 + r as u8]),
        }
    }
    out.push(0x1E);
}

/// The transmission of a block of normal text.
pub fn frame(table: &[u16; 256], text: &[u8], closing: u8, line: &mut Vec<u8>) {
    line.clear();
    line.extend_from_slice(b"\x32\x32\x02");
    line.extend_from_slice(text);
    line.push(closing);
    line.extend_from_slice(&check(table, text, closing).to_le_bytes());
    line.push(0xFF);
}

fn is_text_byte(byte: u8) -> bool {
    !matches!(byte, 0x01 | 0x02 | 0x03 | 0x10 | 0x1F | 0x26 | 0x2D | 0x32 | 0x37 | 0x3D)
}

/// The text of the block that a transmission is, byte by byte; None where the check fails.
pub fn heard(table: &[u16; 256], line: &[u8], text: &mut Vec<u8>) -> Option<u8> {
    let mut bytes = line.iter().copied().skip_while(|b| *b == 0xFF || *b == 0x55).skip_while(|b| *b == 0x32);
    if bytes.next() != Some(0x02) {
        return None;
    }
    text.clear();
    loop {
        let byte = bytes.next()?;
        match byte {
            0x32 => {}
            0x26 | 0x03 => {
                let sent = u16::from(bytes.next()?) | u16::from(bytes.next()?) << 8;
                return (check(table, text, byte) == sent).then_some(byte);
            }
            _ if is_text_byte(byte) && text.len() < 512 => text.push(byte),
            _ => return None,
        }
    }
}

pub fn unpack(text: &[u8], records: &mut Vec<Vec<u8>>) -> Option<()> {
    let mut record = Vec::with_capacity(80);
    let mut bytes = text.iter();
    while let Some(byte) = bytes.next() {
        match byte {
            0x1E => records.push(std::mem::replace(&mut record, Vec::with_capacity(80))),
            0x1D => {
                let count = bytes.next().filter(|c| (0x41..=0x7F).contains(*c))?;
                record.resize(record.len() + usize::from(count - 0x40), 0x40);
            }
            _ => record.push(*byte),
        }
        if record.len() > 144 {
            return None;
        }
    }
    Some(())
}
