//! The tables as `dump_fts`, `dump_lfts`, `ibroute` and OpenSM print them.

use crate::model::{Fabric, Switch, NO_PORT};
use std::collections::HashMap;
use std::io::{self, Read, Write};

/// How many bytes are read or written at a time; a line must fit in.
pub const PIECE: usize = 1 << 20;

/// What was read.
#[derive(Default)]
pub struct Sums {
    pub bytes: u64,
    pub lines: u64,
    pub entries: u64,
}

/// Reads the tables of switches in any order; `keep` is off to measure the reader alone. A fault is told by its line.
pub fn read_tables(fabric: &mut Fabric, mut input: impl Read, keep: bool) -> Result<Sums, String> {
    let mut reader = Reader { places: fabric.places(), fabric, keep, switch: None, sums: Sums::default() };
    let mut buffer = vec![0; PIECE];
    // how many bytes of a line are there that has not ended
    let mut begun = 0;
    loop {
        if begun == buffer.len() {
            return Err(format!("line {}: too long", reader.sums.lines + 1));
        }
        let got = input.read(&mut buffer[begun..]).map_err(|fault| fault.to_string())?;
        if got == 0 {
            return Ok(reader.sums);
        }
        reader.sums.bytes += got as u64;
        let end = begun + got;
        let read = reader.lines(&buffer[..end])?;
        buffer.copy_within(read..end, 0);
        begun = end - read;
    }
}

/// Tables that are being read.
struct Reader<'a> {
    places: HashMap<u64, usize>,
    fabric: &'a mut Fabric,
    keep: bool,
    /// The switch whose entries come.
    switch: Option<usize>,
    sums: Sums,
}

impl Reader<'_> {
    /// Reads all lines that end in a text, and says how many bytes they have.
    fn lines(&mut self, text: &[u8]) -> Result<usize, String> {
        let mut read = 0;
        while let Some(length) = find_feed(&text[read..]) {
            let line = &text[read..read + length];
            read += length + 1;
            self.sums.lines += 1;
            self.line(line).map_err(|fault| format!("line {}: {fault}", self.sums.lines))?;
        }
        Ok(read)
    }

    #[inline]
    fn line(&mut self, line: &[u8]) -> Result<(), &'static str> {
        match line {
            [b'0', b'x', a, b, c, d, b' ', e, f, g, ..] => {
                let lid = value(a) << 12 | value(b) << 8 | value(c) << 4 | value(d);
                self.entry(lid, value(e) * 100 + value(f) * 10 + value(g))
            }
            _ if line.starts_with(b"Unicast lids") => self.head(line),
            _ => Ok(()),
        }
    }

    #[inline]
    fn entry(&mut self, lid: u32, port: u32) -> Result<(), &'static str> {
        if lid > u32::from(u16::MAX) || port > u32::from(u8::MAX) {
            return Err("entry");
        }
        let switch = self.switch.ok_or("entry before switch")?;
        self.sums.entries += 1;
        if self.keep && (lid as usize) < self.fabric.lids {
            self.fabric.set(switch, lid as usize, port as u8);
        }
        Ok(())
    }

    /// The head of a table, which has the GUID of its switch.
    fn head(&mut self, line: &[u8]) -> Result<(), &'static str> {
        let text = std::str::from_utf8(line).map_err(|_| "text")?;
        let digits = text.split_once("guid 0x").and_then(|(_, rest)| rest.get(..16)).ok_or("guid")?;
        let guid = u64::from_str_radix(digits, 16).map_err(|_| "guid")?;
        self.switch = Some(*self.places.get(&guid).ok_or("unknown switch")?);
        Ok(())
    }
}

/// The value of what is no digit, which makes each number too great.
const NO_DIGIT: u32 = 1 << 16;

/// The value of a hexadecimal digit.
fn value(digit: &u8) -> u32 {
    match digit {
        b'0'..=b'9' => u32::from(digit - b'0'),
        b'a'..=b'f' => u32::from(digit - b'a' + 10),
        b'A'..=b'F' => u32::from(digit - b'A' + 10),
        _ => NO_DIGIT,
    }
}

/// The place of the first line feed, which is looked for in eight bytes at a time.
#[inline]
fn find_feed(text: &[u8]) -> Option<usize> {
    const LOW: u64 = 0x0101_0101_0101_0101;
    const HIGH: u64 = 0x8080_8080_8080_8080;
    let mut words = text.chunks_exact(8);
    for (i, word) in words.by_ref().enumerate() {
        // a byte of it is zero at a line feed, and then its high bit is the lowest one of the mask
        let word = u64::from_le_bytes(word.try_into().unwrap()) ^ (LOW * u64::from(b'\n'));
        let mask = word.wrapping_sub(LOW) & !word & HIGH;
        if mask != 0 {
            return Some(i * 8 + mask.trailing_zeros() as usize / 8);
        }
    }
    let rest = words.remainder();
    rest.iter().position(|&byte| byte == b'\n').map(|place| text.len() - rest.len() + place)
}

/// Counts line feeds, as `wc -l`.
pub fn count_lines(mut input: impl Read) -> u64 {
    let mut buffer = vec![0; PIECE];
    let mut count = 0;
    loop {
        let got = input.read(&mut buffer).unwrap();
        if got == 0 {
            return count;
        }
        count += buffer[..got].iter().filter(|&&byte| byte == b'\n').count() as u64;
    }
}

/// What stands after an entry without a description.
const BARE: &str = " :\n";

/// Writes the tables, with a description of the target after each row if they are `long`.
pub fn write_tables(fabric: &Fabric, out: &mut impl Write, long: bool) -> io::Result<()> {
    let ends = if long { descriptions(fabric) } else { vec![BARE.to_string(); fabric.lids] };
    for (place, Switch { guid, lid, name, .. }) in fabric.switches.iter().enumerate() {
        write!(out, "Unicast lids [0x0-0x{:x}] of switch Lid {lid} guid 0x{guid:016x} ", fabric.lids - 1)?;
        writeln!(out, "(MF0;{name}:MQM8700/U1):\n  Lid  Out   Destination\n       Port     Info")?;
        let mut count = 0;
        for (lid, &port) in fabric.table(place).iter().enumerate().skip(1) {
            if port != NO_PORT {
                out.write_all(&row(lid, port))?;
                out.write_all(ends[lid].as_bytes())?;
                count += 1;
            }
        }
        writeln!(out, "{count} valid lids dumped ")?;
    }
    out.flush()
}

/// What stands after the entry of each LID.
fn descriptions(fabric: &Fabric) -> Vec<String> {
    let mut ends = vec![BARE.to_string(); fabric.lids];
    for Switch { guid, lid, name, .. } in &fabric.switches {
        ends[usize::from(*lid)] = format!(" : (Switch portguid 0x{guid:016x}: 'MF0;{name}:MQM8700/U1')\n");
    }
    for (place, host) in fabric.hosts.iter().enumerate() {
        let guid = host.guid + 1;
        ends[usize::from(host.lid)] =
            format!(" : (Channel Adapter portguid 0x{guid:016x}: 'node{place} mlx5_0')\n");
    }
    ends
}

/// The row of a LID: four hexadecimal digits, and three decimal ones of the port.
fn row(lid: usize, port: u8) -> [u8; 10] {
    let hex = |shift: usize| b"0123456789abcdef"[lid >> shift & 15];
    let decimal = |unit: u8| b'0' + port / unit % 10;
    [b'0', b'x', hex(12), hex(8), hex(4), hex(0), b' ', decimal(100), decimal(10), decimal(1)]
}
