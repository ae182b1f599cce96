//! Long random scripts whose lengths stay around a boundary.
use crate::numbers::Numbers;
use crate::script::{Call, Script, Tally};

const AROUND: [usize; 20] = [0, 1, 2, 3, 4, 7, 8, 15, 16, 17, 31, 32, 33, 64, 127, 128, 129, 254, 255, 256];

fn splice(numbers: &mut Numbers, length: usize, keys: u64) -> Call {
    let most = if numbers.below(8) == 0 { 40 } else { 5 };
    let n = numbers.below(most);
    let given: Vec<u16> = (0..n).map(|_| numbers.below(keys) as u16).collect();
    let mut draws: Vec<u32> = given.iter().map(|_| numbers.draw()).collect();
    if numbers.below(16) == 0 {
        draws.push(5);
    }
    Call::Splice(numbers.below(length as u64 + 2) as u32, given, draws)
}

fn insertion(numbers: &mut Numbers, script: &Script, keys: u64) -> Call {
    let key = numbers.below(keys) as u16;
    let length = script.original.len() as u64;
    let draw = numbers.draw();
    match numbers.below(8) {
        0 => Call::Head(key, draw),
        1 | 2 => {
            let before = script.original.key_of(numbers.below(length + 1) as usize).unwrap_or(numbers.below(keys) as u16);
            Call::After(before, key, draw)
        }
        3 => Call::Push(key, draw),
        4 => splice(numbers, length as usize, keys),
        _ => Call::Index(numbers.below(length + 2) as u32, key, draw),
    }
}

fn removal(numbers: &mut Numbers, script: &Script, keys: u64) -> Call {
    let length = script.original.len() as u64;
    match numbers.below(4) {
        0 => Call::RemoveKey(numbers.below(keys) as u16),
        1 => Call::RemoveKey(script.original.key_of(numbers.below(length + 1) as usize).unwrap_or(0)),
        _ => Call::RemoveIndex(numbers.below(length + 1) as u32),
    }
}

/// A script that looks at all there is after every so many turns, and at the end.
pub fn script(seed: u64, around: usize, turns: usize, every: usize) -> Script {
    let mut numbers = Numbers::new(seed);
    let keys = (around as u64 * 5 / 4 + 3).max(8);
    let mut script = Script::new(seed as u8);
    while script.original.len() < around {
        let call = insertion(&mut numbers, &script, keys);
        script.call(&call);
    }
    for turn in 0..turns {
        let fill = script.original.len() < around || (script.original.len() == around && numbers.below(2) == 0);
        let call = if fill || numbers.below(8) == 0 { insertion(&mut numbers, &script, keys) } else { removal(&mut numbers, &script, keys) };
        script.call(&call);
        let absent = numbers.below(keys) as u16;
        script.call(&Call::IndexOf(absent));
        if turn % every == every - 1 {
            script.look(&[absent]);
        }
    }
    script.look(&[]);
    script
}

pub fn all(tally: &mut Tally) {
    for (i, &around) in AROUND.iter().enumerate() {
        for seed in 0..12 {
            script(1 + seed + 100 * i as u64, around, 200, 1).compare(tally);
        }
    }
}
