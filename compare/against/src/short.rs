//! Every short script over a few keys, places and draws.
use crate::script::{Call, Script, Tally};

fn calls(keys: &[u16], places: u32, draws: &[u32]) -> Vec<Call> {
    let mut all = vec![];
    for &key in keys {
        all.push(Call::RemoveKey(key));
        for &draw in draws {
            all.push(Call::Head(key, draw));
            all.push(Call::Push(key, draw));
            all.extend(keys.iter().map(|&before| Call::After(before, key, draw)));
            all.extend((0..places).map(|place| Call::Index(place, key, draw)));
        }
    }
    for place in 0..places {
        all.push(Call::RemoveIndex(place));
        all.push(Call::Splice(place, vec![], vec![]));
        all.push(Call::Splice(place, keys.to_vec(), vec![draws[0]; keys.len()]));
        all.push(Call::Splice(place, vec![keys[0], keys[1], keys[0]], vec![draws[0], draws[1], draws[1]]));
        all.push(Call::Splice(place, vec![keys[0]], vec![]));
    }
    all
}

fn go(script: &Script, calls: &[Call], depth: u32, keys: &[u16], tally: &mut Tally) {
    let mut looked = script.clone();
    looked.look(keys);
    looked.compare(tally);
    if depth == 0 {
        return;
    }
    for call in calls {
        let mut next = script.clone();
        next.call(call);
        go(&next, calls, depth - 1, keys, tally);
    }
}

pub fn all(tally: &mut Tally) {
    let high = [u32::MAX, 0x0fff_ffff];
    go(&Script::new(0xff), &calls(&[0, 65535, 9], 4, &high), 3, &[0, 65535, 9], tally);
    go(&Script::new(0), &calls(&[3, 4], 3, &high), 4, &[3, 4], tally);
    go(&Script::new(7), &calls(&[3, 4], 3, &[1 << 30, 0]), 3, &[3, 4], tally);
}
