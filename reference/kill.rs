//! Kills the engine while it is at work, and looks at what it left in its file.
//!
//! Each round starts the engine on the file, sends it transactions of all levels, reads its answers
//! and kills it at a random moment. Then every commit whose number was printed has to be in the file
//! with the writes that were sent for it; what else is there has to be commits that were asked for
//! and not yet answered, in their order; and the engine has to show exactly this when it opens the
//! file again. The next round goes on with the same file. In some rounds the file is cut first, at a
//! random byte of what was not printed, as if the last write had come no further; in some the answers
//! are not read for a while, so that the engine is killed while it prints.

#[allow(dead_code)]
mod reference;

use reference::Write;
use std::collections::{BTreeMap, VecDeque};
use std::fs;
use std::io::{self, BufReader, Write as _};
use std::os::fd::AsRawFd;
use std::path::{Path, PathBuf};
use std::process::{Child, Command, ExitCode, Stdio};
use std::sync::atomic::{AtomicBool, AtomicU64, Ordering};
use std::sync::Mutex;
use std::thread;
use std::time::{Duration, Instant};

const SLOTS: u64 = 8;
/// After so many rounds comes a new file.
const ROUNDS_OF_A_FILE: u64 = 25;
const PATIENCE: Duration = Duration::from_secs(30);
const LEVELS: [&str; 3] = ["latest", "snapshot", "serial"];

/// Random numbers (SplitMix64).
struct Random(u64);

impl Random {
    fn next(&mut self) -> u64 {
        self.0 = self.0.wrapping_add(0x9E37_79B9_7F4A_7C15);
        let mut mixed = self.0;
        mixed = (mixed ^ (mixed >> 30)).wrapping_mul(0xBF58_476D_1CE4_E5B9);
        mixed = (mixed ^ (mixed >> 27)).wrapping_mul(0x94D0_49BB_1331_11EB);
        mixed ^ (mixed >> 31)
    }

    fn below(&mut self, bound: u64) -> u64 {
        self.next() % bound.max(1)
    }
}

/// A line that was sent and has an answer, or may have one.
enum Asked {
    /// A read: one line.
    Read,
    /// A commit, and an abort behind it, which is refused if the commit went through.
    Commit(Vec<Write>),
}

/// Makes the lines. What it has under way is what the engine has, unless a commit went through or not:
/// behind each commit stands an abort, so that the slot is idle either way.
struct Maker<'a> {
    random: Random,
    slots: Vec<Option<Vec<Write>>>,
    /// Each write has a value of its own.
    value: &'a mut u64,
    asked: &'a Mutex<VecDeque<Asked>>,
}

impl Maker<'_> {
    fn expect(&self, asked: Asked) {
        self.asked.lock().unwrap().push_back(asked);
    }

    /// Adds a line, or two.
    fn add(&mut self, lines: &mut String) {
        let slot = self.random.below(SLOTS) as usize;
        let act = self.random.below(1000);
        match act {
            0 => {
                self.slots = vec![None; SLOTS as usize];
                lines.push_str("stop\n");
            }
            1..=3 => lines.push_str("sync\n"),
            4..=9 => lines.push_str("sweep\n"),
            _ => match self.slots[slot].take() {
                None => self.begin(slot, lines),
                Some(writes) => self.go_on(slot, writes, act, lines),
            },
        }
    }

    fn begin(&mut self, slot: usize, lines: &mut String) {
        let level = LEVELS[self.random.below(3) as usize];
        self.slots[slot] = Some(Vec::new());
        lines.push_str(&format!("begin {slot} {level}\n"));
    }

    fn go_on(&mut self, slot: usize, mut writes: Vec<Write>, act: u64, lines: &mut String) {
        match act {
            10..=99 => {
                let from = self.random.below(200);
                lines.push_str(&format!("read {slot} {from} {}\n", from + 3));
                self.expect(Asked::Read);
                self.slots[slot] = Some(writes);
            }
            100..=119 => lines.push_str(&format!("abort {slot}\n")),
            120..=699 if writes.len() < 60 => {
                *self.value += 1;
                let write = Write { key: self.random.below(200), value: *self.value };
                lines.push_str(&format!("write {slot} {} {}\n", write.key, write.value));
                writes.push(write);
                self.slots[slot] = Some(writes);
            }
            _ => {
                lines.push_str(&format!("commit {slot}\nabort {slot}\n"));
                self.expect(Asked::Commit(writes));
            }
        }
    }
}

/// What is known of a round.
#[derive(Default)]
struct Heard {
    /// The writes of the commits whose numbers were printed, in their order.
    committed: Vec<Vec<Write>>,
    refused: u64,
}

/// How a round goes on, as its three threads know it.
#[derive(Default)]
struct Course {
    answers: AtomicU64,
    /// Nothing more is heard.
    heard: AtomicBool,
    killed: AtomicBool,
    /// Answers are not read from this one on until the engine is killed.
    stall: u64,
}

impl Course {
    fn answered(&self) {
        let answers = self.answers.fetch_add(1, Ordering::Relaxed);
        while answers >= self.stall && !self.killed.load(Ordering::Relaxed) {
            thread::sleep(Duration::from_micros(100));
        }
    }
}

/// Takes the answers as they come. The last line counts only if it was printed whole.
fn hear(out: impl io::Read, first: u64, asked: &Mutex<VecDeque<Asked>>, course: &Course) -> Result<Heard, String> {
    let mut heard = Heard::default();
    let mut lines = BufReader::new(out);
    while let Some(line) = whole_line(&mut lines)? {
        course.answered();
        let next = asked.lock().unwrap().pop_front();
        match next {
            None => return Err(format!("`{line}` where nothing was asked")),
            Some(Asked::Read) if line.starts_with("no ") => return Err(format!("`{line}` to a read")),
            Some(Asked::Read) => {}
            Some(Asked::Commit(_)) if ["no 4", "no 5"].contains(&line.as_str()) => heard.refused += 1,
            Some(Asked::Commit(writes)) => {
                let number = first + heard.committed.len() as u64;
                if line != number.to_string() {
                    return Err(format!("`{line}` to a commit, where {number} is next"));
                }
                heard.committed.push(writes);
                match whole_line(&mut lines)? {
                    Some(line) if line != "no 2" => return Err(format!("`{line}` to an abort after a commit")),
                    _ => {}
                }
            }
        }
    }
    Ok(heard)
}

fn whole_line(lines: &mut impl io::BufRead) -> Result<Option<String>, String> {
    let mut line = String::new();
    lines.read_line(&mut line).map_err(|problem| problem.to_string())?;
    Ok(line.strip_suffix('\n').map(str::to_string))
}

/// Sends lines until the engine is gone.
fn send(mut pipe: impl io::Write, maker: &mut Maker) {
    loop {
        let size = 1 << maker.random.below(15);
        let mut lines = String::new();
        while lines.len() < size {
            maker.add(&mut lines);
        }
        if pipe.write_all(lines.as_bytes()).and_then(|()| pipe.flush()).is_err() {
            return;
        }
    }
}

extern "C" {
    fn fcntl(file: i32, command: i32, ...) -> i32;
}

/// Has a pipe hold one page, so that whoever writes to it waits soon.
fn narrow(pipe: &impl AsRawFd) {
    const SET_PIPE_SIZE: i32 = 1031;
    // SAFETY: the file is open, and the command takes a number.
    unsafe { fcntl(pipe.as_raw_fd(), SET_PIPE_SIZE, 4096) };
}

/// Kills the engine after so many answers, and a while more.
fn kill(child: &mut Child, course: &Course, after: u64, pause: Duration) -> io::Result<()> {
    let start = Instant::now();
    let waits = || course.answers.load(Ordering::Relaxed) < after && !course.heard.load(Ordering::Relaxed);
    while waits() && start.elapsed() < PATIENCE {
        thread::sleep(Duration::from_micros(50));
    }
    thread::sleep(pause);
    let killed = child.kill();
    course.killed.store(true, Ordering::Relaxed);
    killed.and_then(|()| child.wait()).map(drop)
}

struct Killer {
    engine: PathBuf,
    file: PathBuf,
    random: Random,
    value: u64,
    /// The commits in the file after the last round.
    records: Vec<Vec<Write>>,
    printed: u64,
    refused: u64,
    unprinted: u64,
    cut: u64,
    early: u64,
}

impl Killer {
    fn round(&mut self) -> Result<(), String> {
        let after = if self.random.below(8) == 0 { 0 } else { self.random.below(3000) };
        let stalled = self.random.below(3) == 0;
        let pause = Duration::from_micros(self.random.below(if stalled { 20_000 } else { 2_000 }));
        let course = Course { stall: if stalled { after } else { u64::MAX }, ..Course::default() };
        let asked = Mutex::new(VecDeque::new());
        let heard = self.run(&asked, &course, after, pause)?;
        self.early += u64::from(course.answers.into_inner() == 0);
        self.printed += heard.committed.len() as u64;
        self.refused += heard.refused;
        self.look(heard.committed, asked.into_inner().unwrap())?;
        self.reopen()
    }

    /// Runs the engine until it is killed.
    fn run(
        &mut self,
        asked: &Mutex<VecDeque<Asked>>,
        course: &Course,
        after: u64,
        pause: Duration,
    ) -> Result<Heard, String> {
        let mut child = self.start()?;
        let stdin = child.stdin.take().expect("a pipe was asked for");
        let stdout = child.stdout.take().expect("a pipe was asked for");
        if course.stall < u64::MAX {
            narrow(&stdout);
        }
        let first = self.records.len() as u64;
        let random = Random(self.random.next());
        let mut maker = Maker { random, slots: vec![None; SLOTS as usize], value: &mut self.value, asked };
        thread::scope(|scope| {
            scope.spawn(|| send(stdin, &mut maker));
            let hearer = scope.spawn(|| {
                let heard = hear(stdout, first, asked, course);
                course.heard.store(true, Ordering::Relaxed);
                heard
            });
            let killed = kill(&mut child, course, after, pause);
            let heard = hearer.join().expect("hearing does not panic")?;
            killed.map(|()| heard).map_err(|problem| problem.to_string())
        })
    }

    /// Starts the engine on the file.
    fn start(&self) -> Result<Child, String> {
        let mut command = Command::new(&self.engine);
        command.arg(&self.file).stdin(Stdio::piped()).stdout(Stdio::piped());
        command.spawn().map_err(|problem| problem.to_string())
    }

    /// Looks at the file: the commits of the last round, those whose number was printed, and then some
    /// of those that were not answered.
    fn look(&mut self, printed: Vec<Vec<Write>>, open: VecDeque<Asked>) -> Result<(), String> {
        let bytes = match fs::read(&self.file) {
            Err(problem) if problem.kind() != io::ErrorKind::NotFound => return Err(problem.to_string()),
            read => read.unwrap_or_default(),
        };
        let (records, whole) = reference::records(&bytes).map_err(|(at, why)| format!("byte {at}: {why}"))?;
        self.cut += u64::from(whole < bytes.len());
        self.records.extend(printed);
        let known = self.records.len();
        if records.len() < known {
            return Err(format!("{} commits in the file, and {known} numbers were printed", records.len()));
        }
        if let Some(number) = (0..known).find(|&number| records[number] != self.records[number]) {
            return Err(format!("commit {number} is not in the file as it was sent"));
        }
        let mut open = open.iter();
        for (number, record) in records.iter().enumerate().skip(known) {
            if !open.any(|asked| matches!(asked, Asked::Commit(writes) if writes == record)) {
                return Err(format!("commit {number} in the file was not asked for, or was refused"));
            }
        }
        self.unprinted += (records.len() - known) as u64;
        self.records = records;
        match self.random.below(3) {
            0 => self.cut(&bytes, known),
            _ => Ok(()),
        }
    }

    /// Cuts the file at a random byte behind the records that have to stay.
    fn cut(&mut self, bytes: &[u8], known: usize) -> Result<(), String> {
        let kept: usize = self.records[..known].iter().map(|writes| 6 + 6 * writes.len()).sum();
        let end = kept + self.random.below((bytes.len() - kept) as u64 + 1) as usize;
        let (records, whole) = reference::records(&bytes[..end]).map_err(|(at, why)| format!("byte {at}: {why}"))?;
        self.cut += u64::from(whole < end);
        self.records = records;
        fs::write(&self.file, &bytes[..end]).map_err(|problem| problem.to_string())
    }

    /// Opens the file by the engine, and holds what it shows against the records.
    fn reopen(&mut self) -> Result<(), String> {
        let mut child = self.start()?;
        let mut stdin = child.stdin.take().expect("a pipe was asked for");
        let sent = stdin.write_all(b"show\nbegin 0 snapshot\nread 0 0 4096\n");
        drop(stdin);
        let done = child.wait_with_output().map_err(|problem| problem.to_string())?;
        sent.map_err(|problem| problem.to_string())?;
        let mut standing = BTreeMap::new();
        for write in self.records.iter().flatten() {
            standing.insert(write.key, write.value);
        }
        let found: Vec<String> = standing.iter().map(|(key, value)| format!("{key}={value}")).collect();
        let right = format!("{} {} 0\n{}\n", self.records.len(), standing.len(), found.join(" "));
        if !done.status.success() || String::from_utf8_lossy(&done.stdout) != right {
            return Err(format!("opened again: {}, and not what the file holds", done.status));
        }
        let bytes = fs::read(&self.file).map_err(|problem| problem.to_string())?;
        match reference::records(&bytes) {
            Ok((records, whole)) if whole == bytes.len() && records == self.records => Ok(()),
            _ => Err("opened again, the file does not hold the whole records and nothing else".into()),
        }
    }

    fn rounds(&mut self, rounds: u64) -> Result<(), String> {
        for round in 0..rounds {
            if round % ROUNDS_OF_A_FILE == 0 {
                let _ = fs::remove_file(&self.file);
                self.records.clear();
                self.value = 0;
            }
            self.round().map_err(|problem| format!("round {round}: {problem}"))?;
        }
        Ok(())
    }
}

fn killer() -> Result<(Killer, u64), String> {
    let words: Vec<String> = std::env::args().skip(1).collect();
    let [engine, folder, rounds, seed] = &words[..] else { return Err("give ENGINE FOLDER ROUNDS SEED".into()) };
    let number = |text: &String| text.parse::<u64>().map_err(|_| format!("{text} is no number"));
    let killer = Killer {
        engine: PathBuf::from(engine),
        file: Path::new(folder).join("killed.file"),
        random: Random(number(seed)?),
        value: 0,
        records: Vec::new(),
        printed: 0,
        refused: 0,
        unprinted: 0,
        cut: 0,
        early: 0,
    };
    Ok((killer, number(rounds)?))
}

fn main() -> ExitCode {
    let start = Instant::now();
    let (mut killer, rounds) = match killer() {
        Ok(found) => found,
        Err(problem) => {
            eprintln!("kill-test: {problem}");
            return ExitCode::from(2);
        }
    };
    let seed = killer.random.0;
    let outcome = killer.rounds(rounds);
    let Killer { printed, refused, unprinted, cut, early, .. } = killer;
    println!(
        "{printed} commits printed and {refused} refused; {unprinted} in the file whose numbers were not printed; \
         {cut} files ended within a record; {early} kills before the first answer"
    );
    match outcome {
        Ok(()) => {
            println!("{rounds} kills, seed {seed}: nothing printed was lost ({:.1} s)", start.elapsed().as_secs_f32());
            ExitCode::SUCCESS
        }
        Err(problem) => {
            println!("seed {seed}, {problem} (the file: {})", killer.file.display());
            ExitCode::from(1)
        }
    }
}
