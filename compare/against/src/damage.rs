//! Damaged commands, cut-off commands and short outputs.
use crate::host;
use crate::long;
use crate::numbers::Numbers;
use crate::script::{Script, Tally};

const LETTERS: &[u8] = b"HAIPQWSRXikncvlh";

fn expect(what: &str, held: bool, tally: &mut Tally) {
    if !held {
        tally.differences += 1;
        println!("{what}");
    }
}

/// The script with commands of unknown letters put in between: each gets its mark, and the others answer as before.
fn with_unknown(script: &Script, numbers: &mut Numbers) -> Script {
    let mut damaged = Script::new(0);
    for (command, report) in script.commands.iter().zip(&script.expected) {
        while numbers.below(3) == 0 {
            let mut bytes = *command;
            bytes[0] = numbers.next() as u8;
            if !LETTERS.contains(&bytes[0]) {
                damaged.add(bytes, host::unknown());
            }
        }
        damaged.add(*command, *report);
    }
    damaged
}

/// The first bytes of the commands, and an output of any length.
fn cut(script: &Script, numbers: &mut Numbers, tally: &mut Tally) {
    let whole = script.commands.concat();
    let commands = &whole[..numbers.below(whole.len() as u64 + 1) as usize];
    let mut expected: Vec<host::Report> = script.expected[..commands.len() / 12].to_vec();
    if commands.len() % 12 != 0 {
        expected.push(host::cut_off());
    }
    let room = numbers.below(16 * expected.len() as u64 + 40) as usize;
    let fits = expected.len().min(room / 16);
    let before: Vec<u8> = (0..room).map(|_| numbers.next() as u8).collect();
    let mut out = before.clone();
    let written = host::run(commands, &mut out);
    tally.damaged += 1;
    expect("another number of bytes is answered", written == 16 * fits, tally);
    expect("another report", out[..16 * fits] == expected[..fits].concat(), tally);
    expect("a byte behind the reports changed", out[16 * fits..] == before[16 * fits..], tally);
}

/// Bytes of any kind: the host answers, writes whole reports only, and every unknown letter has its mark.
fn noise(numbers: &mut Numbers, tally: &mut Tally) {
    let commands: Vec<u8> = (0..numbers.below(4000)).map(|_| numbers.next() as u8).collect();
    let room = numbers.below(6000) as usize;
    let mut out = vec![0x5a; room];
    let written = host::run(&commands, &mut out);
    tally.damaged += 1;
    expect("noise: another number of bytes", written == 16 * commands.len().div_ceil(12).min(room / 16), tally);
    expect("noise: a byte behind the reports changed", out[written..].iter().all(|&b| b == 0x5a), tally);
    for (command, report) in commands.chunks(12).zip(out[..written].chunks(16)) {
        let mark = if command.len() < 12 {
            Some(host::cut_off())
        } else if !LETTERS.contains(&command[0]) {
            Some(host::unknown())
        } else {
            None
        };
        expect("noise: another mark", mark.map_or(report[0] < 6, |mark| report == mark), tally);
    }
}

/// More than 256 keys and draws wait: the 257th is refused with 4, and the splice then has 256 of each.
fn waiting(tally: &mut Tally) {
    let mut script = Script::new(0);
    for n in 0..258u16 {
        let report = if n < 256 { host::done() } else { host::refused(4) };
        script.add(host::command(b'Q', None, Some(n), None, None, 0), report);
        script.add(host::command(b'W', None, None, None, Some(u32::MAX), 0), report);
    }
    script.add(host::command(b'S', None, None, Some(0), None, 0), host::number(256));
    script.add(host::command(b'S', None, None, Some(0), None, 0), host::number(0));
    script.add(host::command(b'k', None, None, Some(255), None, 0), host::key(255));
    script.compare(tally);
}

pub fn all(tally: &mut Tally) {
    waiting(tally);
    let mut numbers = Numbers::new(77);
    for seed in 0..200 {
        let script = long::script(9000 + seed, (seed % 9) as usize * 3, 12, 4);
        let damaged = with_unknown(&script, &mut numbers);
        damaged.compare(tally);
        tally.damaged += 1;
        for _ in 0..20 {
            cut(&damaged, &mut numbers, tally);
        }
        noise(&mut numbers, tally);
    }
}
