//! The reference: answers the engine's lines straight from docs/RULES.md.
//!
//! It keeps every commit for ever and works out each answer anew. A read replays the commits in
//! their order, a commit looks over all commits that it did not see, and the versions that a
//! sweep takes away are only marked. Nothing here is fast, and nothing is shared with the engine.

use std::collections::BTreeSet;
use std::fs::{File, OpenOptions};
use std::io::{self, Read as _, Write as _};
use std::path::{Path, PathBuf};

const SLOTS: u64 = 16;
const KEYS: u64 = 4096;
const MOST_READS: usize = 64;
const MOST_WRITES: usize = 64;
const MOST_VERSIONS: usize = 32_768;
const MOST_COMMITS: usize = 4_294_967_295;
const MOST_VALUE: u64 = 4_294_967_295;
const LONGEST_LINE: usize = 1024;

#[derive(Clone, Copy, PartialEq)]
pub enum Level {
    Latest,
    Snapshot,
    Serial,
}

#[derive(Clone, Copy, PartialEq)]
pub struct Write {
    pub key: u64,
    pub value: u64,
}

/// A read that was answered: its range, and how many writes the transaction had made before it.
#[derive(Clone)]
pub struct Range {
    from: u64,
    to: u64,
    writes_before: usize,
}

#[derive(Clone)]
pub struct Transaction {
    pub level: Level,
    pub begin: usize,
    pub reads: Vec<Range>,
    pub writes: Vec<Write>,
}

impl Transaction {
    fn saw(&self, commit: usize) -> bool {
        commit < self.begin
    }

    fn wrote(&self, key: u64) -> bool {
        self.writes.iter().any(|write| write.key == key)
    }

    fn wrote_before(&self, key: u64, read: &Range) -> bool {
        self.writes[..read.writes_before].iter().any(|write| write.key == key)
    }

    /// Whether one of its ranges looks at the key.
    fn looks_at(&self, key: u64) -> bool {
        self.reads.iter().any(|read| read.from <= key && key < read.to && !self.wrote_before(key, read))
    }

    /// Whether one of its ranges looks at a key that the other writes.
    fn looks_at_writes_of(&self, other: &Transaction) -> bool {
        other.keys().iter().any(|&key| self.looks_at(key))
    }

    /// The different keys that it writes.
    fn keys(&self) -> BTreeSet<u64> {
        self.writes.iter().map(|write| write.key).collect()
    }

    fn last_write(&self, key: u64) -> Option<u64> {
        self.writes.iter().rev().find(|write| write.key == key).map(|write| write.value)
    }
}

/// What a commit left at a key. One that a sweep took away stays in the list, marked.
struct Version {
    commit: usize,
    swept: bool,
}

/// Where the commits are kept.
pub enum Home {
    File(PathBuf),
    /// In memory, only Serials, and at the end the serial order is printed.
    Lineup,
}

pub struct Reference {
    home: Home,
    file: Option<File>,
    /// The file can't be read.
    broken: bool,
    pub slots: Vec<Option<Transaction>>,
    /// The transactions that committed: the number of a commit is its place here.
    commits: Vec<Transaction>,
    /// All pairs of commits, both Serial and under way together, of which the first passes the other.
    passes: Vec<(usize, usize)>,
    /// The versions of each key, latest first.
    versions: Vec<Vec<Version>>,
}

/// What a line is answered: a line or nothing, or a refusal.
type Answer = Result<Option<String>, u32>;

/// A part of a line where a number has to stand.
#[derive(Clone, Copy, PartialEq)]
enum Part {
    Number(u64),
    Unreadable,
}

impl Part {
    /// Reads a word. A number too large for 64 bits counts as the largest of these: all bounds are far below.
    fn of(word: Option<&&[u8]>) -> Part {
        match word {
            Some(word) if word.iter().all(u8::is_ascii_digit) => {
                let digit = |byte: &u8| u64::from(byte - b'0');
                let add = |sum: u64, byte| sum.saturating_mul(10).saturating_add(digit(byte));
                Part::Number(word.iter().fold(0, add))
            }
            _ => Part::Unreadable,
        }
    }

    fn or(self, otherwise: u64) -> u64 {
        match self {
            Part::Number(number) => number,
            Part::Unreadable => otherwise,
        }
    }
}

impl Reference {
    pub fn new(home: Home) -> io::Result<Reference> {
        let mut new = Reference {
            home,
            file: None,
            broken: false,
            slots: Vec::new(),
            commits: Vec::new(),
            passes: Vec::new(),
            versions: Vec::new(),
        };
        new.open()?;
        Ok(new)
    }

    /// Drops everything, and takes up what is in the file.
    fn open(&mut self) -> io::Result<()> {
        self.slots = (0..SLOTS).map(|_| None).collect();
        self.commits = Vec::new();
        self.passes = Vec::new();
        self.versions = (0..KEYS).map(|_| Vec::new()).collect();
        self.broken = false;
        self.file = None;
        let Home::File(path) = &self.home else { return Ok(()) };
        let mut file = OpenOptions::new().read(true).append(true).create(true).open(path)?;
        if !file.metadata()?.is_file() {
            return Err(io::Error::new(io::ErrorKind::InvalidInput, "it is no plain file"));
        }
        let mut bytes = Vec::new();
        file.read_to_end(&mut bytes)?;
        match records(&bytes) {
            Ok((records, whole)) => {
                if whole < bytes.len() {
                    file.set_len(whole as u64)?;
                }
                for writes in records {
                    self.take_record(writes);
                }
                self.file = Some(file);
            }
            Err((at, why)) => {
                eprintln!("reference: {}: byte {at}: {why}", path.display());
                self.broken = true;
            }
        }
        Ok(())
    }

    /// Does a record of the file. Whoever begins from now on saw this commit, so its level and its
    /// reads, which the file does not hold, play no part any more.
    fn take_record(&mut self, writes: Vec<Write>) {
        let commit = self.commits.len();
        let done = Transaction { level: Level::Latest, begin: commit, reads: Vec::new(), writes };
        for key in done.keys() {
            self.versions[key as usize] = vec![Version { commit, swept: false }];
        }
        self.commits.push(done);
    }

    /// Answers a line, given without its line feed.
    pub fn line(&mut self, line: &[u8]) -> io::Result<Option<String>> {
        Ok(match self.answer(line)? {
            Ok(answer) => answer,
            Err(number) => Some(format!("no {number}")),
        })
    }

    fn answer(&mut self, line: &[u8]) -> io::Result<Answer> {
        if line.len() > LONGEST_LINE {
            return Ok(Err(9));
        }
        let line = line.strip_suffix(b"\r").unwrap_or(line);
        let words: Vec<&[u8]> =
            line.split(|&byte| byte == b' ' || byte == b'\t').filter(|word| !word.is_empty()).collect();
        let Some((&call, rest)) = words.split_first() else { return Ok(Err(9)) };
        let calls: [&[u8]; 9] = [b"begin", b"read", b"write", b"commit", b"abort", b"sweep", b"sync", b"stop", b"show"];
        if !calls.contains(&call) {
            return Ok(Err(9));
        }
        if self.broken && call != b"stop" {
            return Ok(Err(8));
        }
        match call {
            b"begin" => Ok(self.begin(rest)),
            b"read" => Ok(self.read(rest)),
            b"write" => Ok(self.write(rest)),
            b"commit" => self.commit(rest),
            b"abort" => Ok(self.abort(rest)),
            _ if !rest.is_empty() => Ok(Err(9)),
            b"sweep" => Ok(self.sweep()),
            b"sync" => self.sync(),
            b"stop" => self.stop(),
            _ => Ok(self.show()),
        }
    }

    // The calls with a slot. Each gathers all the refusals that apply, and the lowest wins.

    fn begin(&mut self, words: &[&[u8]]) -> Answer {
        let mut refusals = BTreeSet::new();
        let slot = Part::of(words.first());
        let level = match words.get(1).copied() {
            Some(b"latest") => Some(Level::Latest),
            Some(b"snapshot") => Some(Level::Snapshot),
            Some(b"serial") => Some(Level::Serial),
            _ => None,
        };
        if slot.or(0) >= SLOTS || (words.len() > 1 && level.is_none()) {
            refusals.insert(1);
        } else if slot != Part::Unreadable && self.slots[slot.or(0) as usize].is_some() {
            refusals.insert(2);
        }
        if slot == Part::Unreadable || words.len() != 2 {
            refusals.insert(9);
        }
        if matches!(self.home, Home::Lineup) && level.is_some() && level != Some(Level::Serial) {
            refusals.insert(9);
        }
        lowest(&refusals)?;
        self.slots[slot.or(0) as usize] =
            level.map(|level| Transaction { level, begin: self.commits.len(), reads: Vec::new(), writes: Vec::new() });
        Ok(None)
    }

    fn read(&mut self, words: &[&[u8]]) -> Answer {
        let mut refusals = BTreeSet::new();
        let slot = Part::of(words.first());
        let (start, end) = (Part::of(words.get(1)), Part::of(words.get(2)));
        let from = start.or(0);
        let to = end.or(from.saturating_add(1));
        if slot.or(0) >= SLOTS || from >= KEYS || to <= from || to > KEYS {
            refusals.insert(1);
        } else if slot != Part::Unreadable {
            match &self.slots[slot.or(0) as usize] {
                None => refusals.insert(2),
                Some(reader) => reader.reads.len() >= MOST_READS && refusals.insert(3),
            };
        }
        if [slot, start, end].contains(&Part::Unreadable) || words.len() != 3 {
            refusals.insert(9);
        }
        lowest(&refusals)?;
        let Some(mut reader) = self.slots[slot.or(0) as usize].take() else { return Err(2) };
        let done = if reader.level == Level::Latest { self.commits.len() } else { reader.begin };
        let standing = self.replay(done);
        let found: Vec<String> = (from..to)
            .map(|key| (key, reader.last_write(key).unwrap_or(standing[key as usize])))
            .filter(|&(_, value)| value != 0)
            .map(|(key, value)| format!("{key}={value}"))
            .collect();
        reader.reads.push(Range { from, to, writes_before: reader.writes.len() });
        self.slots[slot.or(0) as usize] = Some(reader);
        Ok(Some(found.join(" ")))
    }

    /// What stands at each key when the first commits are done, so many of them, in their order.
    fn replay(&self, done: usize) -> Vec<u64> {
        let mut standing = vec![0; KEYS as usize];
        for write in self.commits[..done].iter().flat_map(|commit| &commit.writes) {
            standing[write.key as usize] = write.value;
        }
        standing
    }

    fn write(&mut self, words: &[&[u8]]) -> Answer {
        let mut refusals = BTreeSet::new();
        let slot = Part::of(words.first());
        let (key, value) = (Part::of(words.get(1)), Part::of(words.get(2)));
        if slot.or(0) >= SLOTS || key.or(0) >= KEYS {
            refusals.insert(1);
        } else if slot != Part::Unreadable {
            match &self.slots[slot.or(0) as usize] {
                None => refusals.insert(2),
                Some(writer) => writer.writes.len() >= MOST_WRITES && refusals.insert(3),
            };
        }
        if [slot, key, value].contains(&Part::Unreadable) || value.or(0) > MOST_VALUE || words.len() != 3 {
            refusals.insert(9);
        }
        lowest(&refusals)?;
        if let Some(writer) = &mut self.slots[slot.or(0) as usize] {
            writer.writes.push(Write { key: key.or(0), value: value.or(0) });
        }
        Ok(None)
    }

    fn abort(&mut self, words: &[&[u8]]) -> Answer {
        let slot = self.only_slot(words, |_, _| BTreeSet::new())?;
        self.slots[slot] = None;
        Ok(None)
    }

    fn commit(&mut self, words: &[&[u8]]) -> io::Result<Answer> {
        let slot = match self.only_slot(words, Reference::against_commit) {
            Ok(slot) => slot,
            Err(number) => return Ok(Err(number)),
        };
        let Some(done) = self.slots[slot].take() else { return Ok(Err(2)) };
        let number = self.commits.len();
        if let Some(file) = &mut self.file {
            file.write_all(&record(number, &done.writes))?;
        }
        for key in done.keys() {
            self.versions[key as usize].insert(0, Version { commit: number, swept: false });
        }
        self.passes = self.passes_with(&done);
        self.commits.push(done);
        Ok(Ok(Some(number.to_string())))
    }

    /// Reads a line that has a slot and nothing else, and looks for refusals: those of every such
    /// line, and those that the call has besides.
    fn only_slot(&self, words: &[&[u8]], besides: fn(&Reference, &Transaction) -> BTreeSet<u32>) -> Result<usize, u32> {
        let mut refusals = BTreeSet::new();
        let slot = Part::of(words.first());
        if slot.or(0) >= SLOTS {
            refusals.insert(1);
        } else if slot != Part::Unreadable {
            match &self.slots[slot.or(0) as usize] {
                None => drop(refusals.insert(2)),
                Some(transaction) => refusals.extend(besides(self, transaction)),
            }
        }
        if slot == Part::Unreadable || words.len() != 1 {
            refusals.insert(9);
        }
        lowest(&refusals)?;
        Ok(slot.or(0) as usize)
    }

    // Who may commit.

    /// The refusals that apply if the transaction commits now.
    fn against_commit(&self, transaction: &Transaction) -> BTreeSet<u32> {
        let mut refusals = BTreeSet::new();
        if transaction.level != Level::Latest && self.written_unseen(transaction) {
            refusals.insert(4);
        }
        if transaction.level == Level::Serial && has_pivot(&self.passes_with(transaction)) {
            refusals.insert(5);
        }
        if self.versions_held() + transaction.keys().len() > MOST_VERSIONS {
            refusals.insert(6);
        }
        if self.commits.len() >= MOST_COMMITS {
            refusals.insert(7);
        }
        refusals
    }

    /// Whether a commit that the transaction did not see wrote a key that it writes.
    fn written_unseen(&self, transaction: &Transaction) -> bool {
        let keys = transaction.keys();
        self.commits
            .iter()
            .enumerate()
            .filter(|&(number, _)| !transaction.saw(number))
            .any(|(_, commit)| commit.writes.iter().any(|write| keys.contains(&write.key)))
    }

    /// The pairs of which the first passes the other, with the transaction among the commits.
    /// Those of two commits were found when the later one of them was done.
    fn passes_with(&self, last: &Transaction) -> Vec<(usize, usize)> {
        let mut passes = self.passes.clone();
        let number = self.commits.len();
        for (other_number, other) in self.commits.iter().enumerate() {
            let serials = last.level == Level::Serial && other.level == Level::Serial;
            let together = !last.saw(other_number) && !other.saw(number);
            if !serials || !together {
                continue;
            }
            if last.looks_at_writes_of(other) {
                passes.push((number, other_number));
            }
            if other.looks_at_writes_of(last) {
                passes.push((other_number, number));
            }
        }
        passes
    }

    // Versions, sweeping, and the calls without a slot.

    pub fn versions_held(&self) -> usize {
        self.versions.iter().flatten().filter(|version| !version.swept).count()
    }

    /// The lowest begin under way at Snapshot or Serial, or the number of commits done.
    fn floor(&self) -> usize {
        self.slots
            .iter()
            .flatten()
            .filter(|transaction| transaction.level != Level::Latest)
            .map(|transaction| transaction.begin)
            .min()
            .unwrap_or(self.commits.len())
    }

    fn sweep(&mut self) -> Answer {
        let floor = self.floor();
        for list in &mut self.versions {
            let mut behind = false;
            for version in list.iter_mut().filter(|version| !version.swept) {
                version.swept = behind;
                behind = behind || version.commit < floor;
            }
        }
        Ok(None)
    }

    fn sync(&mut self) -> io::Result<Answer> {
        if let Some(file) = &self.file {
            file.sync_all()?;
        }
        Ok(Ok(None))
    }

    fn stop(&mut self) -> io::Result<Answer> {
        if matches!(self.home, Home::Lineup) {
            return Ok(Err(9));
        }
        self.open()?;
        Ok(Ok(None))
    }

    fn show(&self) -> Answer {
        let busy = self.slots.iter().flatten().count();
        Ok(Some(format!("{} {} {busy}", self.commits.len(), self.versions_held())))
    }

    // The serial order.

    /// Whether one commit has to stand before another.
    fn stands_before(&self, one: usize, another: usize) -> bool {
        let (first, other) = (&self.commits[one], &self.commits[another]);
        (one < another && first.keys().iter().any(|&key| other.wrote(key)))
            || (other.saw(one) && other.looks_at_writes_of(first))
            || (!first.saw(another) && first.looks_at_writes_of(other))
    }

    /// The commits, each time the lowest of those that none of the others left has to stand before.
    fn lineup(&self) -> Vec<usize> {
        let all = 0..self.commits.len();
        let before: Vec<Vec<usize>> = all
            .clone()
            .map(|another| all.clone().filter(|&one| one != another && self.stands_before(one, another)).collect())
            .collect();
        let mut left: BTreeSet<usize> = all.collect();
        let mut order = Vec::new();
        let free = |left: &BTreeSet<usize>| {
            left.iter().copied().find(|&commit| !before[commit].iter().any(|one| left.contains(one)))
        };
        while let Some(commit) = free(&left) {
            left.remove(&commit);
            order.push(commit);
        }
        order
    }

    /// What is printed at the end of the input.
    pub fn last_line(&self) -> Option<String> {
        let Home::Lineup = self.home else { return None };
        let order: Vec<String> = self.lineup().iter().map(usize::to_string).collect();
        Some(order.join(" "))
    }
}

/// The lowest number wins.
fn lowest(refusals: &BTreeSet<u32>) -> Result<(), u32> {
    refusals.iter().min().map_or(Ok(()), |&number| Err(number))
}

/// Whether somebody passes one and is passed by one.
fn has_pivot(passes: &[(usize, usize)]) -> bool {
    let passed: BTreeSet<usize> = passes.iter().map(|pair| pair.1).collect();
    passes.iter().any(|pair| passed.contains(&pair.0))
}

/// The bytes of a commit's record.
fn record(number: usize, writes: &[Write]) -> Vec<u8> {
    let mut bytes = vec![1];
    bytes.extend((number as u32).to_be_bytes());
    bytes.push(writes.len() as u8);
    for write in writes {
        bytes.extend((write.key as u16).to_be_bytes());
        bytes.extend((write.value as u32).to_be_bytes());
    }
    bytes
}

/// The writes of each record in the file, and how many bytes the whole records take; or where the
/// bad record begins, and why it can't be read.
pub fn records(bytes: &[u8]) -> Result<(Vec<Vec<Write>>, usize), (usize, String)> {
    let mut records = Vec::new();
    let mut at = 0;
    while at < bytes.len() {
        if bytes[at] != 1 {
            return Err((at, format!("a record begins with {} and not with 1", bytes[at])));
        }
        let Some(&count) = bytes.get(at + 5) else { break };
        let end = at + 6 + 6 * usize::from(count);
        let Some(pairs) = bytes.get(at + 6..end) else { break };
        let number = big_endian(&bytes[at + 1..at + 5]);
        if number != records.len() as u64 {
            return Err((at, format!("number {number} where {} has to stand", records.len())));
        }
        if usize::from(count) > MOST_WRITES {
            return Err((at, format!("{count} writes")));
        }
        let writes: Vec<Write> =
            pairs.chunks(6).map(|pair| Write { key: big_endian(&pair[..2]), value: big_endian(&pair[2..]) }).collect();
        if let Some(write) = writes.iter().find(|write| write.key >= KEYS) {
            return Err((at, format!("key {}", write.key)));
        }
        records.push(writes);
        at = end;
    }
    Ok((records, at))
}

fn big_endian(bytes: &[u8]) -> u64 {
    bytes.iter().fold(0, |sum, &byte| sum * 256 + u64::from(byte))
}

/// Answers the lines of the input, and sends the answers out before it waits for more.
fn serve(reference: &mut Reference) -> io::Result<()> {
    let mut answers = String::new();
    let mut held = Vec::new();
    let mut bytes = vec![0; 1 << 16];
    loop {
        send(&mut answers)?;
        let count = io::stdin().read(&mut bytes)?;
        if count == 0 {
            break;
        }
        for &byte in &bytes[..count] {
            if byte != b'\n' {
                held.push(byte);
            } else if let Err(problem) = say(reference.line(&std::mem::take(&mut held)), &mut answers) {
                return send(&mut answers).and(Err(problem));
            }
        }
    }
    if !held.is_empty() {
        say(reference.line(&held), &mut answers)?;
    }
    say(Ok(reference.last_line()), &mut answers)?;
    send(&mut answers)
}

fn send(answers: &mut String) -> io::Result<()> {
    io::stdout().write_all(answers.as_bytes())?;
    answers.clear();
    io::stdout().flush()
}

fn say(answer: io::Result<Option<String>>, answers: &mut String) -> io::Result<()> {
    if let Some(answer) = answer? {
        answers.push_str(&answer);
        answers.push('\n');
    }
    Ok(())
}

fn main() {
    let mut arguments = std::env::args_os().skip(1);
    let (Some(argument), None) = (arguments.next(), arguments.next()) else {
        eprintln!("reference: give the name of one file");
        std::process::exit(1);
    };
    let home = match argument.to_str() {
        Some("--lineup") => Home::Lineup,
        _ => Home::File(Path::new(&argument).to_path_buf()),
    };
    let served = Reference::new(home).and_then(|mut reference| serve(&mut reference));
    if let Err(problem) = served {
        eprintln!("reference: {}: {problem}", Path::new(&argument).display());
        std::process::exit(1);
    }
}
