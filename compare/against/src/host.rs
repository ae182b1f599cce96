//! The host's call: commands and reports as bytes.

extern "C" {
    fn order_host_run(commands: *const u8, commands_len: usize, out: *mut u8, out_len: usize) -> usize;
}

pub type Command = [u8; 12];
pub type Report = [u8; 16];

/// Runs the commands, writes into the output, and answers how many bytes of it are reports.
pub fn run(commands: &[u8], out: &mut [u8]) -> usize {
    unsafe { order_host_run(commands.as_ptr(), commands.len(), out.as_mut_ptr(), out.len()) }
}

/// Bytes that no letter uses are set to `junk`, since they are not read.
pub fn command(letter: u8, level: Option<u8>, key: Option<u16>, place: Option<u32>, draw: Option<u32>, junk: u8) -> Command {
    let mut bytes = [junk; 12];
    bytes[0] = letter;
    if let Some(level) = level {
        bytes[1] = level;
    }
    if let Some(key) = key {
        bytes[2..4].copy_from_slice(&key.to_le_bytes());
    }
    if let Some(place) = place {
        bytes[4..8].copy_from_slice(&place.to_le_bytes());
    }
    if let Some(draw) = draw {
        bytes[8..12].copy_from_slice(&draw.to_le_bytes());
    }
    bytes
}

fn marked(mark: u8) -> Report {
    let mut report = [0; 16];
    report[0] = mark;
    report
}

pub fn done() -> Report {
    marked(0)
}

pub fn number(n: u32) -> Report {
    let mut report = marked(1);
    report[8..12].copy_from_slice(&n.to_le_bytes());
    report
}

pub fn key(key: u16) -> Report {
    let mut report = marked(2);
    report[4..6].copy_from_slice(&key.to_le_bytes());
    report
}

pub fn none() -> Report {
    marked(3)
}

pub fn links(ahead: (Option<u16>, usize), back: (Option<u16>, usize)) -> Report {
    let mut report = marked(4);
    report[2] = ahead.0.is_some() as u8;
    report[3] = back.0.is_some() as u8;
    report[4..6].copy_from_slice(&ahead.0.unwrap_or(0).to_le_bytes());
    report[6..8].copy_from_slice(&back.0.unwrap_or(0).to_le_bytes());
    report[8..12].copy_from_slice(&(ahead.1 as u32).to_le_bytes());
    report[12..16].copy_from_slice(&(back.1 as u32).to_le_bytes());
    report
}

pub fn refused(n: u8) -> Report {
    let mut report = marked(5);
    report[1] = n;
    report
}

pub fn unknown() -> Report {
    marked(6)
}

pub fn cut_off() -> Report {
    marked(7)
}

pub fn number_or_none(n: Option<usize>) -> Report {
    n.map_or(none(), |n| number(n as u32))
}

pub fn key_or_none(k: Option<u16>) -> Report {
    k.map_or(none(), key)
}
