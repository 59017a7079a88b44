//! The engine's lines answered in plain Rust, for measurements: simple tables, no checks beyond what `tools/bench-engine`
//! asks for. It assumes numbers of 32 bits, no line that is faulty behind its first word, and room for everything.

use std::fmt::Write as _;
use std::io::{self, Read as _, Write as _};

const KEYS: usize = 4096;
const SLOTS: usize = 16;

#[derive(Clone, Copy, PartialEq)]
enum Level {
    Latest,
    Snapshot,
    Serial,
}

struct Version {
    number: u32,
    value: u32,
}

/// A read of a range, and how many writes were made before it.
struct Range {
    from: u32,
    to: u32,
    before: usize,
}

struct Transaction {
    level: Level,
    begin: u32,
    reads: Vec<Range>,
    writes: Vec<(u32, u32)>,
}

impl Transaction {
    /// Whether one of the reads looks at a key that the other writes.
    fn passes(&self, other: &Transaction) -> bool {
        other.writes.iter().any(|&(key, _)| self.reads.iter().any(|read| self.looks_at(read, key)))
    }

    fn looks_at(&self, read: &Range, key: u32) -> bool {
        read.from <= key && key < read.to && !self.writes[..read.before].iter().any(|&(own, _)| own == key)
    }

    fn own(&self, key: u32) -> Option<u32> {
        self.writes.iter().rev().find(|&&(own, _)| own == key).map(|&(_, value)| value)
    }
}

/// A committed Serial, whether it passes one, and whether one passes it.
struct Committed {
    number: u32,
    transaction: Transaction,
    passes: bool,
    passed: bool,
}

/// The versions of each key, the latest last.
struct Engine {
    versions: Vec<Vec<Version>>,
    count: usize,
    slots: [Option<Transaction>; SLOTS],
    window: Vec<Committed>,
    commits: u32,
}

impl Engine {
    fn new() -> Engine {
        Engine {
            versions: (0..KEYS).map(|_| Vec::new()).collect(),
            count: 0,
            slots: Default::default(),
            window: Vec::new(),
            commits: 0,
        }
    }

    /// Answers one line.
    fn line(&mut self, line: &[u8], out: &mut String) {
        let mut words = line.split(|&byte| byte == b' ');
        let name = words.next().unwrap();
        let answered = match name {
            b"begin" => {
                let slot = number(words.next());
                self.begin(slot, words.next().unwrap())
            }
            b"read" => self.read(number(words.next()), number(words.next()), number(words.next()), out),
            b"write" => self.write(number(words.next()), number(words.next()), number(words.next())),
            b"commit" => self.commit(number(words.next()), out),
            b"abort" => self.abort(number(words.next())),
            b"sweep" => Ok(self.sweep()),
            b"sync" => Ok(()),
            b"show" => Ok(self.show(out)),
            _ => Err(9),
        };
        if let Err(refusal) = answered {
            writeln!(out, "no {refusal}").unwrap();
        }
    }

    fn begin(&mut self, slot: u32, level: &[u8]) -> Result<(), u8> {
        let level = match level {
            b"latest" => Level::Latest,
            b"snapshot" => Level::Snapshot,
            b"serial" => Level::Serial,
            _ => return Err(1),
        };
        let slot = self.slots.get_mut(slot as usize).ok_or(1)?;
        if slot.is_some() {
            return Err(2);
        }
        *slot = Some(Transaction { level, begin: self.commits, reads: Vec::new(), writes: Vec::new() });
        Ok(())
    }

    fn read(&mut self, slot: u32, from: u32, to: u32, out: &mut String) -> Result<(), u8> {
        if to <= from || to as usize > KEYS {
            return Err(1);
        }
        let transaction = busy(&mut self.slots, slot)?;
        if transaction.reads.len() >= 64 {
            return Err(3);
        }
        let at = if transaction.level == Level::Latest { self.commits } else { transaction.begin };
        let mut gap = "";
        for key in from..to {
            let value = transaction.own(key).unwrap_or_else(|| shown(&self.versions[key as usize], at));
            if value > 0 {
                write!(out, "{gap}{key}={value}").unwrap();
                gap = " ";
            }
        }
        out.push('\n');
        transaction.reads.push(Range { from, to, before: transaction.writes.len() });
        Ok(())
    }

    fn write(&mut self, slot: u32, key: u32, value: u32) -> Result<(), u8> {
        if key as usize >= KEYS {
            return Err(1);
        }
        let transaction = busy(&mut self.slots, slot)?;
        if transaction.writes.len() >= 64 {
            return Err(3);
        }
        transaction.writes.push((key, value));
        Ok(())
    }

    fn commit(&mut self, slot: u32, out: &mut String) -> Result<(), u8> {
        let transaction = busy(&mut self.slots, slot)?;
        let (level, begin) = (transaction.level, transaction.begin);
        if level != Level::Latest
            && transaction.writes.iter().any(|&(key, _)| newer(&self.versions[key as usize], begin))
        {
            return Err(4);
        }
        let mut passes = false;
        let mut passed = false;
        if level == Level::Serial {
            for other in self.window.iter().filter(|other| begin <= other.number) {
                let over = transaction.passes(&other.transaction);
                let under = other.transaction.passes(transaction);
                if over && (other.passes || under) || under && other.passed {
                    return Err(5);
                }
                passes |= over;
                passed |= under;
            }
            if passes && passed {
                return Err(5);
            }
        }
        let transaction = self.slots[slot as usize].take().unwrap();
        self.enter(transaction, passes, passed);
        writeln!(out, "{}", self.commits - 1).unwrap();
        Ok(())
    }

    fn enter(&mut self, transaction: Transaction, passes: bool, passed: bool) {
        let number = self.commits;
        for (i, &(key, value)) in transaction.writes.iter().enumerate() {
            if transaction.writes[i + 1..].iter().all(|&(later, _)| later != key) {
                self.versions[key as usize].push(Version { number, value });
                self.count += 1;
            }
        }
        if transaction.level == Level::Serial {
            for other in self.window.iter_mut().filter(|other| transaction.begin <= other.number) {
                other.passed |= transaction.passes(&other.transaction);
                other.passes |= other.transaction.passes(&transaction);
            }
            self.window.push(Committed { number, transaction, passes, passed });
        }
        self.commits += 1;
        self.forget();
    }

    /// Forgets the commits that all Serials under way saw.
    fn forget(&mut self) {
        let floor = self.floor(|level| level == Level::Serial);
        let gone = self.window.iter().take_while(|other| other.number < floor).count();
        self.window.drain(..gone);
    }

    fn floor(&self, counts: fn(Level) -> bool) -> u32 {
        let begins = self.slots.iter().flatten().filter(|t| counts(t.level)).map(|t| t.begin);
        begins.min().unwrap_or(self.commits)
    }

    fn abort(&mut self, slot: u32) -> Result<(), u8> {
        busy(&mut self.slots, slot)?;
        self.slots[slot as usize] = None;
        self.forget();
        Ok(())
    }

    fn sweep(&mut self) {
        let floor = self.floor(|level| level != Level::Latest);
        for versions in &mut self.versions {
            if let Some(first) = versions.iter().rposition(|version| version.number < floor) {
                versions.drain(..first);
                self.count -= first;
            }
        }
    }

    fn show(&self, out: &mut String) {
        let busy = self.slots.iter().flatten().count();
        writeln!(out, "{} {} {busy}", self.commits, self.count).unwrap();
    }
}

fn busy(slots: &mut [Option<Transaction>], slot: u32) -> Result<&mut Transaction, u8> {
    slots.get_mut(slot as usize).ok_or(1)?.as_mut().ok_or(2)
}

fn shown(versions: &[Version], at: u32) -> u32 {
    versions.iter().rev().find(|version| version.number < at).map_or(0, |version| version.value)
}

fn newer(versions: &[Version], begin: u32) -> bool {
    versions.last().is_some_and(|version| begin <= version.number)
}

fn number(word: Option<&[u8]>) -> u32 {
    word.unwrap().iter().fold(0, |n, &byte| n * 10 + u32::from(byte - b'0'))
}

fn main() -> io::Result<()> {
    let mut engine = Engine::new();
    let mut chunk = vec![0; 1 << 16];
    let mut held = Vec::new();
    let mut out = String::new();
    loop {
        let count = io::stdin().read(&mut chunk)?;
        if count == 0 {
            break;
        }
        held.extend_from_slice(&chunk[..count]);
        let mut start = 0;
        while let Some(length) = held[start..].iter().position(|&byte| byte == b'\n') {
            engine.line(&held[start..start + length], &mut out);
            start += length + 1;
        }
        held.drain(..start);
        io::stdout().write_all(out.as_bytes())?;
        out.clear();
    }
    Ok(())
}
