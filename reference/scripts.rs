//! Makes random scripts. The reference is asked along the way which slots are busy and how full
//! they are, so that most lines do something.

use crate::reference::{Home, Reference};
use std::path::Path;

#[derive(Clone, Copy, PartialEq)]
pub enum Mode {
    File,
    Lineup,
}

/// One run of the two programs.
#[derive(Clone, Default)]
pub struct Case {
    /// What is in the file at first; nothing if there is none.
    pub before: Option<Vec<u8>>,
    pub input: Vec<u8>,
    /// Feed the input in pieces of random sizes, made from this seed.
    pub pieces: Option<u64>,
    /// Feed the input up to the first number, and go on once the output has so many bytes.
    pub pauses: Vec<(usize, usize)>,
    /// What is put into the file at the first pause.
    pub repair: Option<Vec<u8>>,
}

/// Random numbers (SplitMix64).
pub struct Random(pub u64);

impl Random {
    pub fn next(&mut self) -> u64 {
        self.0 = self.0.wrapping_add(0x9E37_79B9_7F4A_7C15);
        let mut mixed = self.0;
        mixed = (mixed ^ (mixed >> 30)).wrapping_mul(0xBF58_476D_1CE4_E5B9);
        mixed = (mixed ^ (mixed >> 27)).wrapping_mul(0x94D0_49BB_1331_11EB);
        mixed ^ (mixed >> 31)
    }

    pub fn below(&mut self, bound: u64) -> u64 {
        self.next() % bound.max(1)
    }

    pub fn between(&mut self, low: u64, high: u64) -> u64 {
        low + self.below(high - low + 1)
    }

    /// True so many times in a hundred.
    fn percent(&mut self, times: u64) -> bool {
        self.below(100) < times
    }

    fn pick<'a, T>(&mut self, list: &'a [T]) -> &'a T {
        &list[self.below(list.len() as u64) as usize]
    }

    /// A place in a list of weights.
    fn weighed(&mut self, weights: &[u64]) -> usize {
        let mut at = self.below(weights.iter().sum());
        for (place, &weight) in weights.iter().enumerate() {
            if at < weight {
                return place;
            }
            at -= weight;
        }
        0
    }
}

#[derive(Clone, Copy, PartialEq, Eq, PartialOrd, Ord, Debug)]
pub enum Kind {
    Mixed,
    Serial,
    Contention,
    Old,
    Keys,
    Ranges,
    Limits,
    Hostile,
    Sweeps,
    Versions,
    Talk,
    Cuts,
    Damage,
}

/// The kinds, seed by seed.
const TURNS: [Kind; 24] = [
    Kind::Mixed,
    Kind::Serial,
    Kind::Contention,
    Kind::Keys,
    Kind::Ranges,
    Kind::Limits,
    Kind::Hostile,
    Kind::Sweeps,
    Kind::Talk,
    Kind::Serial,
    Kind::Contention,
    Kind::Hostile,
    Kind::Versions,
    Kind::Cuts,
    Kind::Damage,
    Kind::Old,
    Kind::Serial,
    Kind::Contention,
    Kind::Ranges,
    Kind::Hostile,
    Kind::Sweeps,
    Kind::Limits,
    Kind::Damage,
    Kind::Hostile,
];

pub fn kind(seed: u64, mode: Mode) -> Kind {
    match TURNS[(seed % TURNS.len() as u64) as usize] {
        Kind::Cuts if mode != Mode::File => Kind::Mixed,
        Kind::Damage if mode != Mode::File => Kind::Serial,
        kind => kind,
    }
}

/// The cases of a seed. The scratch file is used and left there.
pub fn cases(seed: u64, mode: Mode, scratch: &Path) -> std::io::Result<Vec<Case>> {
    let mut maker = Maker::new(seed, mode, scratch)?;
    match kind(seed, mode) {
        Kind::Mixed => maker.mixed(),
        Kind::Serial => maker.serial(),
        Kind::Contention => maker.contention(),
        Kind::Old => maker.old(),
        Kind::Keys => maker.keys(),
        Kind::Ranges => maker.ranges(),
        Kind::Limits => maker.limits(),
        Kind::Hostile => maker.hostile(),
        Kind::Sweeps => maker.sweeps(),
        Kind::Versions => maker.versions(),
        Kind::Talk => return Ok(maker.talk()),
        Kind::Cuts => return Ok(maker.cuts(scratch)),
        Kind::Damage => return Ok(maker.damage(scratch)),
    }
    maker.finish();
    if kind(seed, mode) == Kind::Hostile {
        maker.tail();
    }
    Ok(vec![maker.case()])
}

/// What a stretch of lines is made of.
#[derive(Clone)]
struct Mix {
    slots: u64,
    keys: Vec<u64>,
    /// How often Latest, Snapshot and Serial begin.
    levels: [u64; 3],
    /// How often a slot that is idle is used where there is a busy one.
    begins: u64,
    /// How often each of `ACTS` is done.
    acts: [u64; 9],
    /// How often a range is of one key, short, between two of the keys, anywhere, and whole.
    spans: [u64; 5],
    /// How many lines in a hundred go to a slot that they are not meant for.
    astray: u64,
}

#[derive(Clone, Copy)]
enum Act {
    Read,
    Write,
    Commit,
    Abort,
    Sweep,
    Sync,
    Stop,
    Show,
    Hostile,
}

const ACTS: [Act; 9] =
    [Act::Read, Act::Write, Act::Commit, Act::Abort, Act::Sweep, Act::Sync, Act::Stop, Act::Show, Act::Hostile];

const LEVELS: [&str; 3] = ["latest", "snapshot", "serial"];

struct Maker {
    random: Random,
    mode: Mode,
    oracle: Reference,
    input: Vec<u8>,
    /// How many bytes the input is answered with.
    answered: usize,
}

impl Maker {
    fn new(seed: u64, mode: Mode, scratch: &Path) -> std::io::Result<Maker> {
        let _ = std::fs::remove_file(scratch);
        let home = match mode {
            Mode::File => Home::File(scratch.to_path_buf()),
            Mode::Lineup => Home::Lineup,
        };
        let mut random = Random(seed.wrapping_mul(0x2545_F491_4F6C_DD1D));
        random.next();
        Ok(Maker { random, mode, oracle: Reference::new(home)?, input: Vec::new(), answered: 0 })
    }

    /// The script so far as one case.
    fn case(&mut self) -> Case {
        let pieces = self.random.percent(50).then(|| self.random.next());
        let mut input = std::mem::take(&mut self.input);
        if input.ends_with(b"\n") && self.random.percent(30) {
            input.pop();
        }
        Case { input, pieces, ..Case::default() }
    }

    /// Adds a line, and tells what it is answered.
    fn send(&mut self, line: &[u8]) -> String {
        self.input.extend(line);
        self.input.push(b'\n');
        let answer = match line {
            b"sync" => None,
            _ => self.oracle.line(line).expect("the scratch file works"),
        };
        self.answered += answer.as_ref().map_or(0, |text| text.len() + 1);
        answer.unwrap_or_default()
    }

    fn say(&mut self, line: String) -> String {
        self.send(line.as_bytes())
    }

    fn slots(&self, busy: bool, among: u64) -> Vec<u64> {
        (0..among).filter(|&slot| self.oracle.slots[slot as usize].is_some() == busy).collect()
    }

    /// A slot that is busy, or is not; any if there is none such.
    fn slot(&mut self, busy: bool, among: u64) -> u64 {
        let slots = self.slots(busy, among);
        if slots.is_empty() {
            self.random.below(among)
        } else {
            *self.random.pick(&slots)
        }
    }

    fn value(&mut self) -> u64 {
        match self.random.below(10) {
            0 | 1 => 0,
            2 => *self.random.pick(&[1, 255, 256, 65_536, 16_777_216, 2_147_483_648, 4_294_967_295]),
            3 => self.random.below(1 << 32),
            _ => self.random.between(1, 99),
        }
    }

    fn range(&mut self, mix: &Mix) -> (u64, u64) {
        let key = *self.random.pick(&mix.keys);
        match self.random.weighed(&mix.spans) {
            0 => (key, key + 1),
            1 => {
                let from = key.saturating_sub(self.random.below(4));
                (from, (from + 1 + self.random.below(6)).min(4096))
            }
            2 => {
                let other = *self.random.pick(&mix.keys);
                (key.min(other), key.max(other) + self.random.below(2).max(u64::from(key == other)))
            }
            3 => {
                let from = self.random.below(4096);
                (from, self.random.between(from + 1, 4096))
            }
            _ => (0, 4096),
        }
    }

    /// Scattered keys, so many, with the first and the last of all often among them.
    fn scattered(&mut self, count: u64) -> Vec<u64> {
        let mut keys: Vec<u64> = (0..count).map(|_| self.random.below(4096)).collect();
        if self.random.percent(30) {
            keys[0] = 0;
        }
        if self.random.percent(30) {
            keys[count as usize - 1] = 4095;
        }
        keys
    }

    /// Keys side by side, so many.
    fn neighbours(&mut self, count: u64) -> Vec<u64> {
        let first = *self.random.pick(&[0, 1, 254, 4096 - count]);
        (first..first + count).collect()
    }

    fn mix(&mut self) -> Mix {
        Mix {
            slots: 16,
            keys: self.scattered(12),
            levels: [30, 35, 35],
            begins: 25,
            acts: [30, 35, 22, 3, 2, 1, 0, 3, 0],
            spans: [35, 25, 20, 10, 10],
            astray: 2,
        }
    }

    // A stretch of lines.

    fn lines(&mut self, mix: &Mix, count: u64) {
        for _ in 0..count {
            let idle = self.slots(false, mix.slots);
            let none_busy = idle.len() as u64 == mix.slots;
            if none_busy || (!idle.is_empty() && self.random.percent(mix.begins)) {
                let astray = self.random.percent(mix.astray);
                let slot = self.slot(astray, mix.slots);
                self.begin(mix, slot);
            } else {
                let act = ACTS[self.random.weighed(&mix.acts)];
                self.act(mix, act);
            }
        }
    }

    fn begin(&mut self, mix: &Mix, slot: u64) {
        let level = match self.mode {
            Mode::Lineup if self.random.percent(97) => "serial",
            _ => LEVELS[self.random.weighed(&mix.levels)],
        };
        self.say(format!("begin {slot} {level}"));
    }

    fn act(&mut self, mix: &Mix, act: Act) {
        let astray = self.random.percent(mix.astray);
        let slot = self.slot(!astray, mix.slots);
        match act {
            Act::Read => {
                let (from, to) = self.range(mix);
                self.say(format!("read {slot} {from} {to}"));
            }
            Act::Write => {
                let (key, value) = (*self.random.pick(&mix.keys), self.value());
                self.say(format!("write {slot} {key} {value}"));
            }
            Act::Commit => self.commit(slot),
            Act::Abort => drop(self.say(format!("abort {slot}"))),
            Act::Sweep => drop(self.send(b"sweep")),
            Act::Sync => drop(self.send(b"sync")),
            Act::Stop => drop(self.send(b"stop")),
            Act::Show => drop(self.send(b"show")),
            Act::Hostile => self.hostile_line(mix),
        }
    }

    /// Commits. Where that is refused it tries again at once, gives up, or goes on later.
    fn commit(&mut self, slot: u64) {
        let refused = self.say(format!("commit {slot}")).starts_with("no");
        match self.random.below(10) {
            0 | 1 if refused => drop(self.say(format!("commit {slot}"))),
            2..=7 if refused => drop(self.say(format!("abort {slot}"))),
            _ => {}
        }
    }

    /// Ends a script: everything is looked at once more.
    fn finish(&mut self) {
        self.send(b"show");
        let level = if self.mode == Mode::Lineup { "serial" } else { "latest" };
        let slot = self.slot(false, 16);
        self.say(format!("begin {slot} {level}"));
        for slot in self.slots(true, 16) {
            self.say(format!("read {slot} 0 4096"));
            self.say(format!("commit {slot}"));
        }
        self.send(b"show");
        self.send(b"sweep");
        self.send(b"show");
        if self.random.percent(50) {
            self.send(b"stop");
            self.send(b"show");
            self.say(format!("begin 3 {level}"));
            self.send(b"read 3 0 4096");
        }
    }

    // The kinds.

    fn mixed(&mut self) {
        let mix = self.mix();
        self.lines(&mix, 400);
    }

    fn serial(&mut self) {
        let count = self.random.between(5, 14);
        let keys = if self.random.percent(50) { self.neighbours(count) } else { self.scattered(count) };
        let mix = Mix {
            slots: self.random.between(3, 16),
            keys,
            levels: [0, 0, 1],
            begins: 30,
            acts: [30, 22, 28, 2, 1, 0, 0, 1, 0],
            spans: [50, 25, 20, 3, 2],
            astray: 1,
        };
        self.lines(&mix, 500);
    }

    fn contention(&mut self) {
        let count = self.random.between(2, 6);
        let levels = *self.random.pick(&[[1, 1, 1], [0, 1, 0], [0, 0, 1], [0, 1, 4], [1, 4, 16]]);
        let writes = *self.random.pick(&[8, 12, 20]);
        let mix = Mix {
            keys: self.neighbours(count),
            levels,
            begins: 35,
            acts: [30, writes, 20, 2, 1, 0, 0, 1, 0],
            spans: [60, 15, 20, 3, 2],
            ..self.mix()
        };
        self.lines(&mix, 500);
    }

    /// Some transactions stay under way while many others commit. The keys of the others change from
    /// round to round, so that only the commits of long ago have to do with the old transactions.
    fn old(&mut self) {
        let count = self.random.between(8, 30);
        for round in 0..8 {
            let mix = Mix {
                slots: 11,
                keys: (round * 100..round * 100 + count).collect(),
                levels: [1, 2, 6],
                acts: [26, 24, 30, 2, 1, 0, 0, 1, 0],
                spans: [70, 20, 10, 0, 0],
                ..self.mix()
            };
            for slot in 12..16 {
                self.old_begins(&mix, slot);
            }
            self.lines(&mix, 60);
            self.witness(&mix);
            self.lines(&mix, 140);
            for _ in 0..round % 2 * 3 {
                let slot = self.slot_between(12, 15);
                let earlier = self.random.below(round + 1) * 100 + self.random.below(count);
                let key = if self.random.percent(65) { 2000 + slot } else { earlier };
                self.say(format!("write {slot} {key} {round}"));
                self.commit(slot);
            }
        }
    }

    fn old_begins(&mut self, mix: &Mix, slot: u64) {
        if self.oracle.slots[slot as usize].is_none() && self.random.percent(50) {
            let level = if self.mode == Mode::Lineup { 2 } else { self.random.weighed(&[0, 1, 4]) };
            self.say(format!("begin {slot} {}", LEVELS[level]));
        }
        if self.oracle.slots[slot as usize].is_some() && self.random.percent(50) {
            let (from, to) = self.range(mix);
            self.say(format!("read {slot} {from} {to}"));
        }
    }

    /// A busy slot of some, if there is one.
    fn slot_between(&mut self, low: u64, high: u64) -> u64 {
        let busy: Vec<u64> = self.slots(true, high + 1).into_iter().filter(|&slot| slot >= low).collect();
        if busy.is_empty() {
            low
        } else {
            *self.random.pick(&busy)
        }
    }

    /// Looks at keys that the old transactions are going to write.
    fn witness(&mut self, mix: &Mix) {
        if self.random.percent(50) {
            self.clear(11);
            self.send(b"begin 11 serial");
            let from = self.random.between(2012, 2015);
            self.say(format!("read 11 {from} 2016"));
            let key = *self.random.pick(&mix.keys);
            self.say(format!("write 11 {key} 5"));
            self.commit(11);
        }
    }

    fn keys(&mut self) {
        let mix = Mix {
            keys: (0..4096).collect(),
            acts: [10, 70, 10, 1, 1, 0, 0, 2, 0],
            spans: [10, 20, 20, 30, 20],
            ..self.mix()
        };
        self.lines(&mix, 900);
    }

    fn ranges(&mut self) {
        let count = self.random.between(8, 40);
        let levels = *self.random.pick(&[[0, 0, 1], [1, 1, 1]]);
        let spans = *self.random.pick(&[[1, 0, 0, 0, 0], [0, 1, 1, 0, 0], [0, 0, 1, 2, 1], [4, 4, 4, 2, 1]]);
        let mix =
            Mix { keys: self.neighbours(count), levels, acts: [45, 30, 16, 2, 1, 0, 0, 1, 0], spans, ..self.mix() };
        self.lines(&mix, 500);
    }

    fn sweeps(&mut self) {
        let count = self.random.between(3, 9);
        let stops = self.random.below(5);
        let mix =
            Mix { keys: self.scattered(count), slots: 8, acts: [14, 30, 26, 5, 12, 1, stops, 14, 1], ..self.mix() };
        self.lines(&mix, 500);
    }

    /// Marches to the limits of reads and writes.
    fn limits(&mut self) {
        let mix = Mix { acts: [50, 50, 2, 0, 1, 0, 0, 1, 2], begins: 2, slots: 4, ..self.mix() };
        for round in 0..4 {
            let slot = round % 3;
            self.clear(slot);
            self.begin(&mix, slot);
            let (reads, writes) = (self.random.between(62, 67), self.random.between(62, 67));
            let wide = self.random.below(3);
            for number in 0..reads + writes {
                if self.random.below(reads + writes) < reads {
                    let (from, to) = self.range(&mix);
                    self.say(format!("read {slot} {from} {to}"));
                } else {
                    let key = if wide == 0 { number * 31 } else { *self.random.pick(&mix.keys) };
                    let value = self.value();
                    self.say(format!("write {slot} {key} {value}"));
                }
            }
            self.brim(slot);
            self.lines(&mix, 20);
            self.commit(slot);
        }
        self.lines(&mix, 200);
    }

    /// Lines to a transaction that is about full.
    fn brim(&mut self, slot: u64) {
        for line in [
            "read S 7 8",
            "read S 7 x",
            "read S x 0",
            "read S 8 8",
            "read S",
            "read S 0 4096 1",
            "write S 7 1",
            "write S 7 4294967296",
            "write S 4096 1",
            "write S x 1",
            "write S",
            "write S 0 0 0",
            "read S 7 8",
            "write S 8 9",
        ] {
            if self.random.percent(70) {
                self.say(line.replace('S', &slot.to_string()));
            }
        }
    }

    /// Fills the room for versions, and sweeps with and without somebody under way.
    fn versions(&mut self) {
        let held = self.random.below(3);
        let mut first = self.random.below(4096);
        let step = *self.random.pick(&[64, 64, 61, 1, 3]);
        let mut steps = 0;
        while self.oracle.versions_held() + 64 <= 32_768 {
            if steps % 170 == 60 && held > 0 {
                let slot = 8 + steps / 170;
                self.say(format!("begin {slot} {}", if held == 1 { "snapshot" } else { "serial" }));
                self.say(format!("read {slot} {} {}", first.min(4000), 4096));
            }
            if steps == 100 && self.random.percent(50) {
                self.send(b"sweep");
                self.send(b"show");
            }
            let count = self.random.between(60, 64);
            self.fill(0, first, count);
            first = (first + step) % 4096;
            steps += 1;
        }
        self.full(first);
        for slot in 8..13 {
            self.send(b"sweep");
            self.send(b"show");
            self.fill(1, first, 20);
            self.say(format!("read {slot} 0 4096"));
            self.say(format!("abort {slot}"));
        }
        self.send(b"sweep");
        self.send(b"show");
        let mix = self.mix();
        self.lines(&mix, 100);
    }

    /// Aborts what is under way in a slot.
    fn clear(&mut self, slot: u64) {
        if self.oracle.slots[slot as usize].is_some() {
            self.say(format!("abort {slot}"));
        }
    }

    /// Commits writes of so many keys in a row.
    fn fill(&mut self, slot: u64, first: u64, count: u64) {
        self.write_keys(slot, (first..first + count).collect());
    }

    /// Commits writes of so many keys in a row, and some of these keys twice.
    fn fill_twice(&mut self, slot: u64, first: u64, count: u64) {
        let twice = (0..64.min(count * 2)).map(|number| first + number % count);
        self.write_keys(slot, twice.collect());
    }

    fn write_keys(&mut self, slot: u64, keys: Vec<u64>) {
        self.clear(slot);
        let level = if self.mode == Mode::Lineup { 2 } else { self.random.weighed(&[2, 1, 1]) };
        self.say(format!("begin {slot} {}", LEVELS[level]));
        for key in keys {
            let value = self.value();
            self.say(format!("write {slot} {} {value}", key % 4096));
        }
        self.say(format!("commit {slot}"));
    }

    /// Commits at and over the last room for versions.
    fn full(&mut self, first: u64) {
        self.send(b"show");
        let room = 32_768 - self.oracle.versions_held() as u64;
        self.fill(2, first, room + 1);
        self.send(b"commit 2 now");
        self.send(b"show");
        let level = if self.mode == Mode::Lineup { "serial" } else { "snapshot" };
        self.say(format!("begin 3 {level}"));
        self.say(format!("write 3 {first} 1"));
        self.fill_twice(4, first, room);
        self.send(b"show");
        self.send(b"commit 3");
        self.fill(5, first, 0);
        self.fill(6, first, 1);
        self.send(b"commit 2");
        self.send(b"show");
        let mix = Mix { slots: 7, keys: self.neighbours(9), ..self.mix() };
        self.lines(&mix, 200);
    }

    fn hostile(&mut self) {
        let count = self.random.between(3, 7);
        let mix = Mix {
            slots: 5,
            keys: self.neighbours(count),
            levels: [1, 2, 3],
            acts: [18, 14, 16, 1, 1, 0, 0, 2, 48],
            ..self.mix()
        };
        self.lines(&mix, 350);
        if self.random.percent(25) {
            let long = self.random.between(900_000, 3_000_000) as usize;
            let byte = *self.random.pick(b" 0x\r\0");
            let mut line = b"show".to_vec();
            line.resize(long, byte);
            self.send(&line);
        }
        self.lines(&mix, 50);
    }

    // Lines that can't be read, or nearly so.

    fn hostile_line(&mut self, mix: &Mix) {
        let mut line = match self.random.below(12) {
            0 => self.junk(),
            1 => self.long_line(mix),
            2 | 3 => {
                let slot = self.slot(true, mix.slots);
                let tail = *self.random.pick(&["now", "0", "", "\r", "x y", "\0", "commit"]);
                format!("commit {slot} {tail}").into_bytes()
            }
            _ => self.odd_call(mix),
        };
        if self.random.percent(10) {
            line.push(b'\r');
        }
        line.retain(|&byte| byte != b'\n');
        self.send(&line);
    }

    /// What stands behind the last line feed.
    fn tail(&mut self) {
        let tails: [&[u8]; 10] =
            [b"", b"show", b"show\r", b"\r", b" ", b"\0", b"sho", b"show\r\r", b"\tshow\t", b"commit 0 now"];
        let tail = *self.random.pick(&tails);
        self.input.extend(tail);
        if self.random.percent(20) {
            let length = self.random.between(1022, 1026) as usize - tail.len();
            self.input.extend(b" ".repeat(length));
        }
    }

    fn junk(&mut self) -> Vec<u8> {
        let known: [&[u8]; 22] = [
            b"",
            b" ",
            b"\t",
            b"\r",
            b"\r\r",
            b" \t \r",
            b"\0",
            b"show\0",
            b"\0show",
            b"show\r\r",
            b"\rshow",
            b"SHOW",
            b"sho",
            b"shows",
            b"show show",
            b"sweep 0",
            b"sync\x0b",
            b"\xff\xfe",
            b"\xc3\x28 0",
            b"show\xc2\xa0",
            b"\xef\xbb\xbfshow",
            b"sync sync",
        ];
        match self.random.below(4) {
            0 => (0..self.random.below(40)).map(|_| self.random.next() as u8).collect(),
            1 => (0..self.random.below(12)).map(|_| *self.random.pick(b" \t\r\0show0")).collect(),
            _ => self.random.pick(&known).to_vec(),
        }
    }

    /// A call whose words may each be odd, be missing, or stand apart by more than a space.
    fn odd_call(&mut self, mix: &Mix) -> Vec<u8> {
        let mut words: Vec<Vec<u8>> = Vec::new();
        let call = *self.random.pick(&["begin", "read", "write", "commit", "abort", "sweep", "sync", "show", "stop"]);
        let call = if call == "stop" && self.random.percent(80) { "read" } else { call };
        words.push(call.as_bytes().to_vec());
        let busy = (call == "begin") == self.random.percent(20);
        let slot = self.slot(busy, mix.slots);
        if ["begin", "read", "write", "commit", "abort"].contains(&call) {
            let word = self.odd_number(slot, &[15, 16, 17]);
            words.push(word);
        }
        if call == "begin" {
            let level =
                *self.random.pick(&["latest", "snapshot", "serial", "serial", "never", "Serial", "serial\0", "0"]);
            words.push(level.as_bytes().to_vec());
        } else if call == "read" {
            let (from, to) = self.range(mix);
            let (from, to) = if self.random.percent(15) { (to, from) } else { (from, to) };
            words.push(self.odd_number(from, &[0, 4094, 4095, 4096, to]));
            words.push(self.odd_number(to, &[0, 1, 4095, 4096, 4097, from, from + 1]));
        } else if call == "write" {
            let (key, value) = (*self.random.pick(&mix.keys), self.value());
            words.push(self.odd_number(key, &[4095, 4096, 4097]));
            words.push(self.odd_number(value, &[4_294_967_294, 4_294_967_295, 4_294_967_296, 4_294_967_297]));
        }
        if self.random.percent(15) {
            let kept = self.random.between(1, words.len() as u64) as usize;
            words.truncate(kept);
        }
        if self.random.percent(8) {
            words.push(self.odd_number(0, &[1]));
        }
        self.joined(&words)
    }

    fn joined(&mut self, words: &[Vec<u8>]) -> Vec<u8> {
        let mut line = Vec::new();
        let plain = self.random.percent(70);
        for (place, word) in words.iter().enumerate() {
            if place > 0 || (!plain && self.random.percent(50)) {
                let gaps = ["  ", "\t", " \t \t", "\t\t", " "];
                let gap = if plain { " " } else { *self.random.pick(&gaps) };
                line.extend(gap.as_bytes());
            }
            line.extend(word);
        }
        if !plain && self.random.percent(50) {
            line.extend(self.random.pick(&[" ", "\t", " \r", "\t \t"]).as_bytes());
        }
        line
    }

    /// A word where the number has to stand: mostly the number, else one at a bound, or no number.
    fn odd_number(&mut self, number: u64, bounds: &[u64]) -> Vec<u8> {
        let wrong =
            ["x", "-1", "+1", "1x", "0x1", "1.0", "1e3", "\u{663}", "1\0", "\0", "1\r1", "1_000", "--", "=", ""];
        let large = [
            "256",
            "65535",
            "65536",
            "65537",
            "2147483648",
            "4294967295",
            "4294967296",
            "4294967297",
            "4294967311",
            "18446744073709551615",
            "18446744073709551616",
            "18446744073709551617",
            "18446744073709551631",
            "340282366920938463463374607431768211456",
            "99999999999999999999999999999999999999999999999999",
        ];
        let word = match self.random.below(20) {
            0..=10 => number.to_string(),
            11 | 12 => self.random.pick(bounds).to_string(),
            13 | 14 => self.random.pick(&large).to_string(),
            15 | 16 => {
                let zeros = *self.random.pick(&[1, 2, 9, 19, 20, 30, 100]);
                let number = if self.random.percent(70) { number } else { *self.random.pick(bounds) };
                "0".repeat(zeros) + &number.to_string()
            }
            _ => self.random.pick(&wrong).to_string(),
        };
        word.into_bytes()
    }

    /// A line of about as many bytes as there may be.
    fn long_line(&mut self, mix: &Mix) -> Vec<u8> {
        let length = self.random.between(1022, 1027) as usize;
        let slot = self.slot(true, mix.slots).to_string();
        let key = *self.random.pick(&mix.keys);
        let (start, end) = match self.random.below(6) {
            0 => ("show".into(), String::new()),
            1 => ("commit ".into(), slot),
            2 => (format!("write {slot} {key} "), "7".into()),
            3 => (format!("read {slot} {key} "), (key + 1).to_string()),
            4 => ("".into(), format!("read {slot} 0 4096")),
            _ => ("0".into(), String::new()),
        };
        let number = start.starts_with("write") || start.starts_with("read") || start.starts_with("commit");
        let filler = if number && self.random.percent(50) { b'0' } else { *self.random.pick(b" \t") };
        let mut line = start.into_bytes();
        let returned = self.random.percent(30);
        line.resize(length - end.len() - usize::from(returned), filler);
        line.extend(end.as_bytes());
        if returned {
            line.push(b'\r');
        }
        line
    }

    // Scripts about the file, and about when the answers come.

    /// Waits for the answers now and then before it goes on.
    fn talk(&mut self) -> Vec<Case> {
        let mix = self.mix();
        let mut pauses = Vec::new();
        for _ in 0..20 {
            let count = self.random.between(1, 12);
            self.lines(&mix, count);
            pauses.push((self.input.len(), self.answered));
        }
        self.finish();
        vec![Case { input: std::mem::take(&mut self.input), pauses, ..Case::default() }]
    }

    /// What the file holds after some commits.
    fn written(&mut self, lines: u64, keys: u64, scratch: &Path) -> Vec<u8> {
        let mix = Mix {
            keys: self.scattered(keys),
            slots: 3,
            levels: [2, 1, 1],
            acts: [2, 50, 35, 0, 0, 0, 0, 0, 0],
            ..self.mix()
        };
        self.lines(&mix, lines);
        self.input.clear();
        std::fs::read(scratch).expect("the scratch file works")
    }

    /// A file cut at each of its bytes.
    fn cuts(&mut self, scratch: &Path) -> Vec<Case> {
        let lines = self.random.between(30, 60);
        let bytes = self.written(lines, 6, scratch);
        let from = bytes.len().saturating_sub(260);
        (from..=bytes.len())
            .map(|end| Case { before: Some(bytes[..end].to_vec()), input: self.probe(), ..Case::default() })
            .collect()
    }

    /// Files with some bytes changed.
    fn damage(&mut self, scratch: &Path) -> Vec<Case> {
        let lines = self.random.between(20, 400);
        let bytes = self.written(lines, 30, scratch);
        (0..60)
            .map(|_| {
                let before = Some(self.damaged(&bytes));
                let mut case = Case { before, input: self.probe(), ..Case::default() };
                if self.random.percent(15) {
                    case.repair = Some(if self.random.percent(70) { bytes.clone() } else { self.damaged(&bytes) });
                    case.pauses = vec![(5, 3)];
                    case.input = [b"show\nstop\n".to_vec(), case.input].concat();
                }
                case
            })
            .collect()
    }

    fn damaged(&mut self, bytes: &[u8]) -> Vec<u8> {
        let starts = record_starts(bytes);
        let mut bytes = bytes.to_vec();
        if self.random.percent(10) {
            bytes.extend(self.crowded(starts.len() as u64));
            return bytes;
        }
        let at = *self.random.pick(&starts) + 6;
        if at + 2 <= bytes.len() && self.random.percent(10) {
            let key: [u8; 2] = *self.random.pick(&[[15, 255], [16, 0], [16, 1], [0, 16], [255, 255]]);
            bytes.splice(at..at + 2, key);
            return bytes;
        }
        for _ in 0..self.random.between(1, 2) {
            let start = if self.random.percent(50) { *self.random.pick(&starts) } else { *starts.last().unwrap_or(&0) };
            let at = match self.random.below(4) {
                0 => self.random.below(bytes.len() as u64) as usize,
                1 => start,
                2 => start + self.random.below(6) as usize,
                _ => start + 6 + 6 * self.random.below(3) as usize,
            };
            if let Some(byte) = bytes.get_mut(at) {
                *byte = match self.random.below(4) {
                    0 => byte.wrapping_add(1),
                    1 => *byte ^ (1 << self.random.below(8)),
                    2 => *self.random.pick(&[0, 1, 2, 15, 16, 64, 65, 255]),
                    _ => self.random.next() as u8,
                };
            }
        }
        match self.random.below(8) {
            0 => bytes.truncate(self.random.below(bytes.len() as u64 + 1) as usize),
            1 => bytes.extend((0..self.random.below(20)).map(|_| self.random.below(3) as u8)),
            2 => bytes.extend(self.crowded(starts.len() as u64)),
            _ => {}
        }
        bytes
    }

    /// A record with about as many writes as there may be, sometimes cut short.
    fn crowded(&mut self, number: u64) -> Vec<u8> {
        let count = *self.random.pick(&[63, 64, 65, 128, 255]);
        let mut record = vec![1];
        record.extend((number as u32).to_be_bytes());
        record.push(count);
        record.extend((0..count).flat_map(|key| [0, key, 0, 0, key / 2, 1]));
        if self.random.percent(30) {
            record.truncate(self.random.below(record.len() as u64) as usize);
        }
        record
    }

    /// Looks at all that a file left, commits, and looks again, also after a stop.
    fn probe(&mut self) -> Vec<u8> {
        let mut lines = vec!["show", "begin 0 snapshot", "read 0 0 4096", "write 0 7 9", "write 0 4095 0", "commit 0"];
        lines.extend(["show", "begin 1 serial", "read 1 0 4096"]);
        let extra = [
            "stop x",
            "stopp",
            "",
            "commit x",
            "abort 1 1",
            "sync",
            "sweep",
            "show 1",
            "begin 16 never",
            "stop",
            "write 1 4096 x",
            "read 1 0 4097",
            "begin 1",
        ];
        for line in extra {
            if self.random.percent(20) {
                lines.push(line);
            }
        }
        if self.random.percent(90) {
            lines.extend(["stop", "show", "begin 1 latest", "read 1 0 4096"]);
            lines.extend(["write 1 7 10", "commit 1", "sweep", "show"]);
        }
        (lines.join("\n") + "\n").into_bytes()
    }
}

/// Where the records of a good file begin.
fn record_starts(bytes: &[u8]) -> Vec<usize> {
    let mut starts = Vec::new();
    let mut at = 0;
    while at + 5 < bytes.len() {
        starts.push(at);
        at += 6 + 6 * usize::from(bytes[at + 5]);
    }
    if starts.is_empty() {
        starts.push(0);
    }
    starts
}
