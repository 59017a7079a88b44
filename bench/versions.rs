//! The same rounds as `crates/bench_versions`, over plain arrays: looks, commits and sweeps with all versions in use.
//! Prints the same sum, and with the word `time` also the nanoseconds that each call took, at best.

use std::time::Instant;

const KEYS: usize = 4096;
const ROOM: usize = 32_768;
const FEW: u32 = 3;
const MANY: u32 = 600;

#[derive(Clone, Copy)]
struct Entry {
    key: u32,
    value: u32,
}

/// For each key the place of its latest version, and at each place a version and the place of the next older one.
/// Place 0 is none.
struct Chains {
    heads: Vec<u32>,
    next: Vec<u32>,
    number: Vec<u32>,
    value: Vec<u32>,
    count: usize,
}

impl Chains {
    fn new() -> Chains {
        let places = || vec![0; ROOM + 1];
        Chains { heads: vec![0; KEYS], next: places(), number: places(), value: places(), count: 0 }
    }

    fn shown(&self, key: u32, at: u32) -> u32 {
        let mut place = self.heads[key as usize] as usize;
        while place != 0 && self.number[place] >= at {
            place = self.next[place] as usize;
        }
        if place == 0 {
            0
        } else {
            self.value[place]
        }
    }

    fn add(&mut self, key: u32, number: u32, value: u32) {
        self.count += 1;
        self.next[self.count] = self.heads[key as usize];
        self.number[self.count] = number;
        self.value[self.count] = value;
        self.heads[key as usize] = self.count as u32;
    }
}

struct Versions {
    chains: Chains,
    spare: Chains,
    stack: Vec<u32>,
}

/// Whether the write is the last of its key.
fn is_last(writes: &[Entry], i: usize) -> bool {
    writes[i + 1..].iter().all(|w| w.key != writes[i].key)
}

impl Versions {
    fn new() -> Versions {
        Versions { chains: Chains::new(), spare: Chains::new(), stack: vec![0; ROOM] }
    }

    fn commit(&mut self, number: u32, writes: &[Entry]) -> bool {
        if writes.iter().any(|w| w.key as usize >= KEYS) {
            return false;
        }
        let new = (0..writes.len()).filter(|&i| is_last(writes, i)).count();
        if new > ROOM - self.chains.count {
            return false;
        }
        for i in (0..writes.len()).rev() {
            if is_last(writes, i) {
                self.chains.add(writes[i].key, number, writes[i].value);
            }
        }
        true
    }

    fn sweep(&mut self, floor: u32) {
        self.spare.heads.fill(0);
        self.spare.count = 0;
        for key in 0..KEYS {
            let mut place = self.chains.heads[key] as usize;
            let mut kept = 0;
            while place != 0 {
                self.stack[kept] = place as u32;
                kept += 1;
                if self.chains.number[place] < floor {
                    break;
                }
                place = self.chains.next[place] as usize;
            }
            for &place in self.stack[..kept].iter().rev() {
                let place = place as usize;
                self.spare.add(key as u32, self.chains.number[place], self.chains.value[place]);
            }
        }
        std::mem::swap(&mut self.chains, &mut self.spare);
    }
}

struct Dice(u32);

impl Dice {
    fn roll(&mut self) -> u32 {
        self.0 = self.0.wrapping_mul(1_664_525).wrapping_add(1_013_904_223);
        self.0
    }
}

fn mixed(sum: u32, seen: u32) -> u32 {
    sum.wrapping_mul(31).wrapping_add(seen)
}

fn deal_writes(dice: &mut Dice, writes: &mut [Entry]) {
    let mut last = 0;
    for write in writes {
        let r = dice.roll();
        let key = if r >> 20 == last { last ^ 1 } else { r >> 20 };
        *write = Entry { key, value: r };
        last = key;
    }
}

fn deal_looks(dice: &mut Dice, looks: &mut [Entry], number: u32) {
    for look in looks {
        let r = dice.roll();
        *look = Entry { key: r >> 20, value: number.wrapping_sub((r >> 6) & 16_383) };
    }
}

#[inline(never)]
fn fill(versions: &mut Versions, writes: &[Entry], first: u32) -> u32 {
    let mut number = first;
    for pair in writes.chunks_exact(2) {
        if !versions.commit(number, pair) {
            break;
        }
        number = number.wrapping_add(1);
    }
    number
}

#[inline(never)]
fn look(versions: &Versions, looks: &[Entry]) -> u32 {
    looks.iter().fold(0, |sum, look| mixed(sum, versions.chains.shown(look.key, look.value)))
}

/// Nanoseconds for each of so many calls since the start.
fn each(start: Instant, calls: u32) -> f64 {
    start.elapsed().as_nanos() as f64 / f64::from(calls)
}

fn main() {
    let timed = std::env::args().nth(1).is_some();
    let mut versions = Versions::new();
    let mut writes = vec![Entry { key: 0, value: 0 }; ROOM];
    let mut looks = writes.clone();
    let mut dice = Dice(1);
    let mut number = 0;
    let mut sum = 0;
    let names = ["look", "commit", "sweep-none", "sweep-most"];
    let mut times = [f64::MAX; 4];
    for _ in 0..if timed { MANY } else { FEW } {
        deal_writes(&mut dice, &mut writes);
        let start = Instant::now();
        let next = fill(&mut versions, &writes, number);
        let commit = each(start, next - number);
        number = next + u32::from(versions.commit(next, &[Entry { key: 0, value: 1 }]));
        sum = mixed(sum, versions.chains.count as u32);

        deal_looks(&mut dice, &mut looks, number);
        let start = Instant::now();
        let seen = look(&versions, &looks);
        let looked = each(start, ROOM as u32);
        sum = mixed(sum, seen);

        let start = Instant::now();
        versions.sweep(0);
        let copy = each(start, 1);
        sum = mixed(sum, versions.chains.count as u32);

        let start = Instant::now();
        versions.sweep(number);
        let sweep = each(start, 1);
        sum = mixed(sum, versions.chains.count as u32);

        for (time, new) in times.iter_mut().zip([looked, commit, copy, sweep]) {
            *time = time.min(new);
        }
    }
    println!("sum {sum}");
    if timed {
        for (name, time) in names.iter().zip(times) {
            println!("{name} {time:.1}");
        }
    }
}
