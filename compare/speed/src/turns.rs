//! The turns of a kind of work, worked out beforehand, and their run on the original and on a `Vec`.
use crate::dice::Dice;
use original::Original;
use std::hint::black_box;
use std::time::Instant;

enum Turn {
    IndexOf(u16),
    KeyOf(u32),
    RemoveInsert(u16, u32),
    RemovePush(u16),
    FrontToEnd,
    Splice(u32),
    Walk,
}

pub struct Script {
    fill: Vec<(u32, u16)>,
    fill_draws: Vec<u32>,
    turns: Vec<Turn>,
    draws: Vec<u32>,
}

pub fn script(work: u32, keys: u16, turns: u32) -> Script {
    let mut dice = Dice::new();
    let (mut fill, mut fill_draws, mut draws) = (vec![], vec![], vec![]);
    for value in 0..keys {
        fill.push((dice.below(u32::from(value) + 1), value));
        fill_draws.push(dice.roll());
    }
    let n = u32::from(keys);
    let mut one = || match work {
        1 => Turn::IndexOf(dice.below(n) as u16),
        2 => Turn::KeyOf(dice.below(n)),
        3 => {
            let key = dice.below(n) as u16;
            let place = dice.below(n);
            draws.push(dice.roll());
            Turn::RemoveInsert(key, place)
        }
        4 => {
            let key = dice.below(n) as u16;
            draws.push(dice.roll());
            Turn::RemovePush(key)
        }
        5 => {
            draws.push(dice.roll());
            Turn::FrontToEnd
        }
        6 => {
            draws.extend((0..16).map(|_| dice.roll()));
            Turn::Splice(dice.below(n - 16 + 1))
        }
        _ => Turn::Walk,
    };
    let turns = (0..turns).map(|_| one()).collect();
    Script { fill, fill_draws, turns, draws }
}

fn filled(fill: &[(u32, u16)], draws: &[u32]) -> Original<u16> {
    rand::drain();
    rand::feed(draws);
    let mut list = Original::new();
    for &(place, key) in fill {
        list.insert_index(place as usize, key);
    }
    list
}

/// Bytes on the heap for each key.
pub fn original_bytes(keys: u16) -> usize {
    let script = script(0, keys, 0);
    filled(&script.fill, &script.fill_draws).heap_bytes() / usize::from(keys)
}

impl Script {
    pub fn on_original(&self) -> (f64, u32) {
        let mut list = filled(&self.fill, &self.fill_draws);
        rand::drain();
        rand::feed(&self.draws);
        let start = Instant::now();
        let mut sum = 0u32;
        for turn in &self.turns {
            let gave = match *turn {
                Turn::IndexOf(key) => list.index_of(key).unwrap_or(0) as u32,
                Turn::KeyOf(place) => list.key_of(place as usize).map_or(0, u32::from),
                Turn::RemoveInsert(key, place) => {
                    let old = list.remove_key(key).unwrap_or(0) as u32;
                    list.insert_index(place as usize, key);
                    old
                }
                Turn::RemovePush(key) => {
                    let old = list.remove_key(key).unwrap_or(0) as u32;
                    list.push(key);
                    old
                }
                Turn::FrontToEnd => {
                    let first = list.remove_index(0).unwrap_or(0);
                    list.push(first);
                    u32::from(first)
                }
                Turn::Splice(place) => {
                    let mut taken = [0u16; 16];
                    for cell in &mut taken {
                        *cell = list.remove_index(0).unwrap_or(0);
                    }
                    list.splice(place as usize, &taken);
                    16
                }
                Turn::Walk => list.iter().fold(0u32, |sum, key| sum.wrapping_add(u32::from(key))),
            };
            sum = sum.wrapping_add(black_box(gave));
        }
        (start.elapsed().as_secs_f64(), sum)
    }

    pub fn on_vec(&self) -> (f64, u32) {
        let mut list: Vec<u16> = Vec::with_capacity(4096);
        for &(place, key) in &self.fill {
            list.insert(place as usize, key);
        }
        let find = |list: &[u16], key: u16| list.iter().position(|&other| other == key);
        // an insertion refuses a present key, as both of ours do
        let insert = |list: &mut Vec<u16>, place: usize, key: u16| {
            if find(list, key).is_none() {
                list.insert(place, key);
            }
        };
        let start = Instant::now();
        let mut sum = 0u32;
        for turn in &self.turns {
            let gave = match *turn {
                Turn::IndexOf(key) => find(&list, key).unwrap_or(0) as u32,
                Turn::KeyOf(place) => list.get(place as usize).map_or(0, |&key| u32::from(key)),
                Turn::RemoveInsert(key, place) => {
                    let old = find(&list, key).unwrap_or(0);
                    list.remove(old);
                    insert(&mut list, place as usize, key);
                    old as u32
                }
                Turn::RemovePush(key) => {
                    let old = find(&list, key).unwrap_or(0);
                    list.remove(old);
                    let end = list.len();
                    insert(&mut list, end, key);
                    old as u32
                }
                Turn::FrontToEnd => {
                    let first = list.remove(0);
                    let end = list.len();
                    insert(&mut list, end, first);
                    u32::from(first)
                }
                Turn::Splice(place) => {
                    let taken: Vec<u16> = list.drain(0..16).collect();
                    for (i, &key) in taken.iter().enumerate() {
                        insert(&mut list, place as usize + i, key);
                    }
                    16
                }
                Turn::Walk => list.iter().fold(0u32, |sum, &key| sum.wrapping_add(u32::from(key))),
            };
            sum = sum.wrapping_add(black_box(gave));
        }
        (start.elapsed().as_secs_f64(), sum)
    }
}
