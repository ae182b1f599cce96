//! Where the rules prescribe something else than the original does: each shown on both sides.
use crate::host;
use original::Original;
use std::panic::{catch_unwind, AssertUnwindSafe};

const LOW: u32 = u32::MAX;

/// A list with the keys 1, 2, 3, each at level 1, and the commands that make it.
fn three() -> (Original<u16>, Vec<host::Command>) {
    let mut original = Original::new();
    let mut commands = vec![];
    for key in 1..4 {
        rand::feed(&[LOW]);
        original.push(key);
        commands.push(host::command(b'P', None, Some(key), None, Some(LOW), 0));
    }
    (original, commands)
}

/// The last report of some commands, and the order after them.
fn ours(commands: &[host::Command]) -> String {
    let mut all = commands.to_vec();
    all.extend((0..8).map(|place| host::command(b'k', None, None, Some(place), None, 0)));
    let mut out = vec![0; 16 * all.len()];
    host::run(&all.concat(), &mut out);
    let report = &out[16 * (commands.len() - 1)..16 * commands.len()];
    let order: Vec<u16> = out[16 * commands.len()..].chunks(16).filter(|r| r[0] == 2).map(|r| u16::from_le_bytes([r[4], r[5]])).collect();
    format!("{}, order {order:?}", told(report))
}

fn told(report: &[u8]) -> String {
    let number = u32::from_le_bytes(report[8..12].try_into().unwrap());
    match report[0] {
        0 => "done".into(),
        1 => format!("number {number}"),
        2 => format!("key {}", u16::from_le_bytes([report[4], report[5]])),
        3 => "none".into(),
        4 => format!("links: names a key ahead {}, count {number}", report[2]),
        5 => format!("refused {}", report[1]),
        mark => format!("mark {mark}"),
    }
}

/// What the original answers, or that it panics, with the order and the draws that are left.
fn theirs(mut original: Original<u16>, draws: &[u32], call: impl FnOnce(&mut Original<u16>) -> bool) -> String {
    rand::drain();
    rand::feed(draws);
    let answer = catch_unwind(AssertUnwindSafe(|| call(&mut original)));
    let left = rand::drain().len();
    match answer {
        Ok(answer) => format!("{answer}, order {:?}, {left} draws left", original.iter().collect::<Vec<_>>()),
        Err(_) => format!("panics, {left} draws left"),
    }
}

fn show_one(what: &str, more: &[host::Command], draws: &[u32], call: impl FnOnce(&mut Original<u16>) -> bool) {
    let (original, mut commands) = three();
    commands.extend(more);
    println!("{what}\n  row list: {}\n  original: {}", ours(&commands), theirs(original, draws, call));
}

fn splice(place: u32, keys: &[u16], draws: &[u32]) -> Vec<host::Command> {
    let mut commands: Vec<_> = keys.iter().map(|&key| host::command(b'Q', None, Some(key), None, None, 0)).collect();
    commands.extend(draws.iter().map(|&draw| host::command(b'W', None, None, None, Some(draw), 0)));
    commands.push(host::command(b'S', None, None, Some(place), None, 0));
    commands
}

/// The level that key 9 has after a splice of the present key 2 and of 9, with the draws 0 and 2^32 - 1.
fn levels_after_splice() {
    let (mut original, mut commands) = three();
    commands.extend(splice(1, &[2, 9], &[0, LOW]));
    commands.push(host::command(b'v', None, Some(9), None, None, 0));
    let ours = ours(&commands);
    rand::drain();
    rand::feed(&[0, LOW]);
    original.splice(1, &[2, 9]);
    println!("splice of the present key 2 and of 9 at place 1 with the draws 0 and 2^32 - 1: the level of 9");
    println!("  row list: {ours}\n  original: level {:?}, {} draws left", original.level_of(9).unwrap(), rand::drain().len());
}

fn full() {
    let mut original = Original::new();
    let mut commands = vec![];
    for key in 0..257u16 {
        rand::feed(&[LOW]);
        let answer = original.push(key);
        commands.push(host::command(b'P', None, Some(key), None, Some(LOW), 0));
        if key == 256 {
            let mut out = vec![0; 16 * commands.len()];
            host::run(&commands.concat(), &mut out);
            println!("push of a 257th key\n  row list: {}\n  original: {answer}, length {}", told(&out[16 * 256..]), original.len());
        }
    }
}

pub fn show() {
    std::panic::set_hook(Box::new(|_| {}));
    println!("order [1, 2, 3], each key at level 1, and then:");
    show_one("insert_head of the present key 2", &[host::command(b'H', None, Some(2), None, Some(LOW), 0)], &[LOW], |o| o.insert_head(2));
    show_one("insert_after 9 of 8, 9 absent", &[host::command(b'A', None, Some(8), Some(9), Some(LOW), 0)], &[LOW], |o| o.insert_after(9, 8));
    show_one("insert_index of 8 at place 4", &[host::command(b'I', None, Some(8), Some(4), Some(LOW), 0)], &[LOW], |o| o.insert_index(4, 8));
    show_one("splice of 8, 9 at place 1", &splice(1, &[8, 9], &[LOW, LOW]), &[LOW, LOW], |o| o.splice(1, &[8, 9]));
    show_one("splice of 8, 9 at place 4", &splice(4, &[8, 9], &[LOW, LOW]), &[LOW, LOW], |o| o.splice(4, &[8, 9]));
    show_one("splice of 8, 9 at place 1 with one draw", &splice(1, &[8, 9], &[LOW]), &[LOW], |o| o.splice(1, &[8, 9]));
    levels_after_splice();
    let new: Original<u16> = Original::new();
    println!("the head's links at level 0 of a new list\n  row list: {}\n  original: {:?}", ours(&[host::command(b'h', Some(0), None, None, None, 0)]), new.links(None, 0));
    full();
}
