//! Compares the engine with the reference on hand-written and on random scripts.

#[allow(dead_code)]
mod reference;
mod scripts;

use scripts::{Case, Kind, Mode, Random};
use std::collections::BTreeMap;
use std::fs::{self, File};
use std::io::{self, Write as _};
use std::path::{Path, PathBuf};
use std::process::{Child, Command, ExitCode, Stdio};
use std::sync::atomic::{AtomicU64, Ordering};
use std::sync::Mutex;
use std::thread;
use std::time::{Duration, Instant};

const PATIENCE: Duration = Duration::from_secs(60);

const USAGE: &str = "\
options: --scripts N   how many random scripts (300)
         --seed N      the seed of the first one (1)
         --engine PATH the engine (target/bin/engine; target/bin/lineup with --lineup)
         --lineup      the program that prints the serial order
         --pass WORD   the engine is started with this word, and not with the name of a file
         --jobs N      how many scripts at once (as many as there are cores)
         --selftest    show that bugs planted in the reference are found (--only NAME: that one)";

#[derive(Clone)]
struct Options {
    root: PathBuf,
    scripts: u64,
    seed: u64,
    engine: Option<PathBuf>,
    mode: Mode,
    pass: Option<String>,
    jobs: usize,
    selftest: bool,
    only: Option<String>,
}

fn options() -> Result<Options, String> {
    let mut options = Options {
        root: PathBuf::from("."),
        scripts: 300,
        seed: 1,
        engine: None,
        mode: Mode::File,
        pass: None,
        jobs: thread::available_parallelism().map_or(2, |count| count.get()),
        selftest: false,
        only: None,
    };
    let mut words = std::env::args().skip(1);
    while let Some(word) = words.next() {
        let mut next = || words.next().ok_or(format!("{word} is followed by nothing"));
        let number = |text: String| text.parse::<u64>().map_err(|_| format!("{text} is no number"));
        match word.as_str() {
            "--root" => options.root = PathBuf::from(next()?),
            "--scripts" => options.scripts = number(next()?)?,
            "--seed" => options.seed = number(next()?)?,
            "--engine" => options.engine = Some(PathBuf::from(next()?)),
            "--lineup" => options.mode = Mode::Lineup,
            "--pass" => options.pass = Some(next()?),
            "--jobs" => options.jobs = number(next()?)?.clamp(1, 64) as usize,
            "--selftest" => options.selftest = true,
            "--only" => options.only = Some(next()?),
            _ => return Err(format!("{word} is no option\n{USAGE}")),
        }
    }
    Ok(options)
}

// Running a program.

/// What a program is started with.
#[derive(Clone)]
enum Argument {
    Nothing,
    Word(String),
    File,
}

/// One of the two programs, and how it is started.
struct Program {
    path: PathBuf,
    argument: Argument,
    /// Its file, output and messages are named so.
    name: &'static str,
}

/// What a program did with a case.
struct Outcome {
    stdout: Vec<u8>,
    stderr: Vec<u8>,
    status: String,
    file: Option<Vec<u8>>,
    /// What was in the file at each pause, or that the answers did not come.
    pauses: Vec<Result<Vec<u8>, String>>,
}

impl Program {
    fn file(&self, folder: &Path) -> PathBuf {
        folder.join(format!("{}.file", self.name))
    }

    /// The shell's line that starts it, with the file that is saved as `before`, or with none.
    fn by_hand(&self, folder: &Path, before: bool) -> String {
        let (path, file) = (self.path.display(), self.file(folder));
        let file = file.display();
        match &self.argument {
            Argument::Nothing => path.to_string(),
            Argument::Word(word) => format!("{path} {word}"),
            Argument::File if before => format!("cp {} {file}; {path} {file}", folder.join("before").display()),
            Argument::File => format!("rm -f {file}; {path} {file}"),
        }
    }

    fn run(&self, case: &Case, folder: &Path) -> io::Result<Outcome> {
        let file = self.file(folder);
        let (out, err) = (folder.join(format!("{}.out", self.name)), folder.join(format!("{}.err", self.name)));
        let _ = fs::remove_file(&file);
        if let Some(bytes) = &case.before {
            fs::write(&file, bytes)?;
        }
        let mut command = Command::new(&self.path);
        match &self.argument {
            Argument::Nothing => &mut command,
            Argument::Word(word) => command.arg(word),
            Argument::File => command.arg(&file),
        };
        let mut child =
            command.stdin(Stdio::piped()).stdout(File::create(&out)?).stderr(File::create(&err)?).spawn()?;
        let stdin = child.stdin.take().expect("a pipe was asked for");
        let (status, pauses) = thread::scope(|scope| {
            let feeder = scope.spawn(|| feed(case, stdin, &out, &file));
            let status = wait(&mut child);
            (status, feeder.join().expect("feeding does not panic"))
        });
        Ok(Outcome {
            stdout: fs::read(&out)?,
            stderr: fs::read(&err)?,
            status: status?,
            file: fs::read(&file).ok(),
            pauses,
        })
    }
}

/// Waits for the end of a program, and ends it where that takes too long.
fn wait(child: &mut Child) -> io::Result<String> {
    let start = Instant::now();
    loop {
        if let Some(status) = child.try_wait()? {
            return Ok(status.to_string());
        }
        if start.elapsed() > PATIENCE {
            child.kill()?;
            child.wait()?;
            return Ok(format!("still running after {} seconds", PATIENCE.as_secs()));
        }
        let short = start.elapsed() < Duration::from_millis(30);
        thread::sleep(if short { Duration::from_micros(150) } else { Duration::from_millis(2) });
    }
}

/// Feeds a program its input. A program that ends early does not read it all, which is no mistake here.
fn feed(case: &Case, mut pipe: impl io::Write, out: &Path, file: &Path) -> Vec<Result<Vec<u8>, String>> {
    let mut seen = Vec::new();
    let mut at = 0;
    for (place, &(end, answered)) in case.pauses.iter().enumerate() {
        let _ = pipe.write_all(&case.input[at..end]).and_then(|()| pipe.flush());
        at = end;
        seen.push(await_answers(out, answered).map(|()| fs::read(file).unwrap_or_default()));
        if seen.last().is_some_and(Result::is_err) {
            break;
        }
        if let (0, Some(bytes)) = (place, &case.repair) {
            let _ = fs::write(file, bytes);
        }
    }
    let mut random = case.pieces.map(Random);
    while at < case.input.len() {
        let left = (case.input.len() - at) as u64;
        let size = match &mut random {
            Some(random) => random.between(1, left.min(case.input.len() as u64 / 16 + 1)),
            None => left,
        };
        if pipe.write_all(&case.input[at..at + size as usize]).is_err() {
            break;
        }
        at += size as usize;
    }
    seen
}

/// Waits until so many bytes were answered.
fn await_answers(out: &Path, answered: usize) -> Result<(), String> {
    let start = Instant::now();
    while fs::metadata(out).map_or(0, |data| data.len()) < answered as u64 {
        if start.elapsed() > Duration::from_secs(10) {
            return Err(format!("{answered} bytes of answers did not come before more input was awaited"));
        }
        thread::sleep(Duration::from_micros(150));
    }
    Ok(())
}

// Comparing.

/// What differs, in words, or nothing.
fn difference(expected: &Outcome, got: &Outcome, mode: Mode, engine_file: &Path) -> Option<String> {
    if expected.stdout != got.stdout {
        return Some(first_line_apart(&expected.stdout, &got.stdout));
    }
    if expected.status != got.status {
        return Some(format!("ends with {} where {} is expected", got.status, expected.status));
    }
    for (number, (right, left)) in expected.pauses.iter().zip(&got.pauses).enumerate() {
        match (right, left) {
            (_, Err(problem)) => return Some(problem.clone()),
            (Ok(right), Ok(left)) if mode == Mode::File && right != left => {
                let apart = first_byte_apart(right, left);
                return Some(format!("at pause {number}, with all answers there, the file differs at byte {apart}"));
            }
            _ => {}
        }
    }
    if mode != Mode::File {
        return None;
    }
    if expected.file != got.file {
        return Some(match (&expected.file, &got.file) {
            (Some(right), Some(left)) => format!(
                "the file differs at byte {} (it has {} bytes, expected {})",
                first_byte_apart(right, left),
                left.len(),
                right.len()
            ),
            _ => "one of the files is not there".into(),
        });
    }
    messages_apart(&expected.stderr, &got.stderr, engine_file)
}

fn first_byte_apart(one: &[u8], other: &[u8]) -> usize {
    one.iter().zip(other).take_while(|(left, right)| left == right).count()
}

fn first_line_apart(expected: &[u8], got: &[u8]) -> String {
    let at = first_byte_apart(expected, got);
    let line = expected[..at].iter().filter(|&&byte| byte == b'\n').count();
    let text = |bytes: &[u8]| match bytes.split_inclusive(|&byte| byte == b'\n').nth(line) {
        Some(bytes) => format!("`{}`", String::from_utf8_lossy(bytes).trim_end().chars().take(120).collect::<String>()),
        None => "the end".into(),
    };
    format!("output line {}: {} where {} is expected", line + 1, text(got), text(expected))
}

/// Each message of the reference says at which byte a bad record begins; the engine's has to as
/// well, and to name the file. The other words are free.
fn messages_apart(expected: &[u8], got: &[u8], file: &Path) -> Option<String> {
    let (expected, got) = (String::from_utf8_lossy(expected), String::from_utf8_lossy(got));
    let (rights, lefts): (Vec<&str>, Vec<&str>) = (expected.lines().collect(), got.lines().collect());
    if rights.len() != lefts.len() {
        return Some(format!("{} lines on stderr where {} are expected", lefts.len(), rights.len()));
    }
    let file = file.to_string_lossy();
    for (right, left) in rights.iter().zip(&lefts) {
        let byte: String =
            right.rsplit(": byte ").next().unwrap_or("").chars().take_while(char::is_ascii_digit).collect();
        let rest = left.replace(&*file, "");
        let named = rest.split(|letter: char| !letter.is_ascii_digit()).any(|number| number == byte);
        if rest == *left || !named {
            return Some(format!("the message `{left}` does not name the file and byte {byte}"));
        }
    }
    None
}

// Statistics.

const COLUMNS: [&str; 15] = [
    "scripts", "lines", "silent", "commit", "read", "show", "no 1", "no 2", "no 3", "no 4", "no 5", "no 6", "no 8",
    "no 9", "other",
];

#[derive(Default)]
struct Statistics(BTreeMap<String, [u64; COLUMNS.len()]>);

impl Statistics {
    fn add(&mut self, kind: Kind, case: &Case, outcome: &Outcome) {
        let row = self.0.entry(format!("{kind:?}")).or_default();
        let lines = case.input.split_inclusive(|&byte| byte == b'\n').count() as u64;
        row[0] += 1;
        row[1] += lines;
        let text = String::from_utf8_lossy(&outcome.stdout);
        row[2] += lines.saturating_sub(text.lines().count() as u64);
        for answer in text.lines() {
            let column = match answer {
                "" => "read",
                _ if answer.starts_with("no ") => answer,
                _ if answer.contains('=') => "read",
                _ if !answer.contains(' ') => "commit",
                _ if answer.split(' ').count() == 3 => "show",
                _ => "other",
            };
            row[COLUMNS.iter().position(|&name| name == column).unwrap_or(COLUMNS.len() - 1)] += 1;
        }
    }

    fn print(&self) {
        print!("{:11}", "kind");
        COLUMNS.iter().for_each(|name| print!("{name:>8}"));
        println!();
        let mut sums = [0; COLUMNS.len()];
        for (kind, row) in &self.0 {
            print!("{kind:11}");
            row.iter().for_each(|number| print!("{number:8}"));
            println!();
            sums.iter_mut().zip(row).for_each(|(sum, number)| *sum += number);
        }
        print!("{:11}", "all");
        sums.iter().for_each(|number| print!("{number:8}"));
        println!();
    }
}

// The random scripts.

/// Two programs to be compared.
struct Match {
    engine: Program,
    reference: Program,
    mode: Mode,
    root: PathBuf,
}

/// The first script that differs.
struct Found {
    seed: u64,
    case: Case,
    expected: Outcome,
    got: Outcome,
    what: String,
}

impl Match {
    fn new(options: &Options, engine: PathBuf) -> Match {
        let reference = options.root.join("target/reference/reference");
        let argument = match options.mode {
            Mode::File => Argument::File,
            Mode::Lineup => Argument::Word("--lineup".into()),
        };
        let engine_argument = match (&options.pass, options.mode) {
            (Some(word), _) => Argument::Word(word.clone()),
            (None, Mode::Lineup) => Argument::Nothing,
            (None, _) => Argument::File,
        };
        Match {
            engine: Program { path: engine, argument: engine_argument, name: "engine" },
            reference: Program { path: reference, argument, name: "reference" },
            mode: options.mode,
            root: options.root.clone(),
        }
    }

    /// Runs both on a case. Tells what differs, and both outcomes.
    fn run(&self, case: &Case, folder: &Path) -> io::Result<(Option<String>, Outcome, Outcome)> {
        let expected = self.reference.run(case, folder)?;
        let got = self.engine.run(case, folder)?;
        let what = difference(&expected, &got, self.mode, &self.engine.file(folder));
        Ok((what, expected, got))
    }

    /// Runs both on all cases of a seed, up to the first that differs.
    fn seed(&self, seed: u64, folder: &Path, statistics: &Mutex<Statistics>) -> io::Result<Option<Found>> {
        for case in scripts::cases(seed, self.mode, &folder.join("scratch.file"))? {
            let (what, expected, got) = self.run(&case, folder)?;
            statistics.lock().unwrap().add(scripts::kind(seed, self.mode), &case, &expected);
            if let Some(what) = what {
                return Ok(Some(Found { seed, case, expected, got, what }));
            }
        }
        Ok(None)
    }

    /// Runs both on so many seeds, several at once. Tells the lowest seed that differs.
    fn seeds(&self, options: &Options, statistics: &Mutex<Statistics>) -> io::Result<Option<Found>> {
        let next = AtomicU64::new(options.seed);
        let end = options.seed.saturating_add(options.scripts);
        let found: Mutex<io::Result<Option<Found>>> = Mutex::new(Ok(None));
        thread::scope(|scope| {
            for job in 0..options.jobs {
                let (next, found) = (&next, &found);
                scope.spawn(move || {
                    let folder = work_folder(&self.root, job);
                    loop {
                        let seed = next.fetch_add(1, Ordering::Relaxed);
                        if seed >= end {
                            break;
                        }
                        let outcome = fs::create_dir_all(&folder).and_then(|()| self.seed(seed, &folder, statistics));
                        if !matches!(outcome, Ok(None)) {
                            next.fetch_max(end, Ordering::Relaxed);
                            keep_lowest(&mut found.lock().unwrap(), outcome);
                        }
                    }
                    let _ = fs::remove_dir_all(&folder);
                });
            }
        });
        found.into_inner().unwrap()
    }

    /// Drops lines from a script as long as it still differs.
    fn shorten(&self, found: &Found) -> io::Result<Vec<u8>> {
        let folder = work_folder(&self.root, 99);
        fs::create_dir_all(&folder)?;
        let start = Instant::now();
        let mut lines: Vec<Vec<u8>> =
            found.case.input.split_inclusive(|&byte| byte == b'\n').map(<[u8]>::to_vec).collect();
        let mut size = lines.len() / 2;
        while size > 0 && found.case.pauses.is_empty() {
            let mut at = 0;
            while at < lines.len() && start.elapsed() < Duration::from_secs(15) {
                let mut fewer = lines.clone();
                fewer.drain(at..(at + size).min(lines.len()));
                let case = Case { input: fewer.concat(), before: found.case.before.clone(), ..Case::default() };
                if self.run(&case, &folder)?.0.is_some() {
                    lines = fewer;
                } else {
                    at += size;
                }
            }
            size /= 2;
        }
        fs::remove_dir_all(&folder)?;
        Ok(lines.concat())
    }

    /// Saves a script that differs, and says how to run it again.
    fn report(&self, found: &Found) -> io::Result<()> {
        let folder = self.root.join(format!("target/compare/seed-{}", found.seed));
        let _ = fs::remove_dir_all(&folder);
        fs::create_dir_all(&folder)?;
        let short = self.shorten(found)?;
        let write = |name: &str, bytes: &[u8]| fs::write(folder.join(name), bytes);
        write("input", &found.case.input)?;
        write("short", &short)?;
        write("before", found.case.before.as_deref().unwrap_or_default())?;
        write("expected", &found.expected.stdout)?;
        write("got", &found.got.stdout)?;
        write("expected.err", &found.expected.stderr)?;
        write("got.err", &found.got.stderr)?;
        write("expected.file", found.expected.file.as_deref().unwrap_or_default())?;
        write("got.file", found.got.file.as_deref().unwrap_or_default())?;
        let at = folder.display();
        let flag = match self.mode {
            Mode::File => "",
            Mode::Lineup => " --lineup",
        };
        println!("seed {} ({:?}): {}", found.seed, scripts::kind(found.seed, self.mode), found.what);
        println!("saved: {at}/ (input, short: a shorter script that differs as well, before: the file at first)");
        let flag = match (&self.engine.argument, self.mode) {
            (Argument::Word(word), _) => format!("{flag} --pass {word}"),
            _ => flag.to_string(),
        };
        println!(
            "again: tools/compare{flag} --engine {} --seed {} --scripts 1",
            self.engine.path.display(),
            found.seed
        );
        if !found.case.pauses.is_empty() {
            println!("(only so: the script waits for answers, or the file is changed, before the input goes on)");
            return Ok(());
        }
        for name in ["input", "short"] {
            for program in [&self.reference, &self.engine] {
                println!("   or: {} < {at}/{name}", program.by_hand(&folder, found.case.before.is_some()));
            }
        }
        Ok(())
    }
}

fn work_folder(root: &Path, job: usize) -> PathBuf {
    root.join(format!("target/compare/work-{}-{job}", std::process::id()))
}

fn keep_lowest(kept: &mut io::Result<Option<Found>>, new: io::Result<Option<Found>>) {
    let replace = match (&*kept, &new) {
        (Err(_), _) => false,
        (Ok(Some(old)), Ok(Some(new))) => new.seed < old.seed,
        _ => true,
    };
    if replace {
        *kept = new;
    }
}

// The hand-written cases.

/// Runs both programs on the hand-written cases. Tells how many there are and how many went wrong.
fn written_cases(pair: &Match) -> io::Result<(usize, usize)> {
    let cases = pair.root.join("reference/cases");
    let folders = match pair.mode {
        Mode::File => vec![cases.clone(), cases.join("file")],
        Mode::Lineup => vec![cases.join("lineup")],
    };
    let work = work_folder(&pair.root, 0);
    fs::create_dir_all(&work)?;
    let (mut count, mut wrong) = (0, 0);
    for folder in folders {
        for path in with_ending(&folder, "in")? {
            let case = Case { input: fs::read(&path)?, before: bytes_written(&path, "before"), ..Case::default() };
            let right = fs::read(path.with_extension("out"))?;
            let after = bytes_written(&path, "after");
            count += 1;
            for program in [&pair.reference, &pair.engine] {
                let outcome = program.run(&case, &work)?;
                if outcome.stdout != right || outcome.status != "exit status: 0" {
                    wrong += 1;
                    let apart = first_line_apart(&right, &outcome.stdout);
                    println!("{} on {}: {apart} ({})", program.name, path.display(), outcome.status);
                } else if after.is_some() && outcome.file != after {
                    wrong += 1;
                    println!("{} on {}: the file is not as written", program.name, path.display());
                }
            }
        }
    }
    fs::remove_dir_all(&work)?;
    Ok((count, wrong))
}

/// The file of a case, where there is one: bytes as pairs of digits, and comments from `#` to a line's end.
fn bytes_written(path: &Path, ending: &str) -> Option<Vec<u8>> {
    let text = fs::read_to_string(path.with_extension(ending)).ok()?;
    let line = |line: &str| line.split('#').next().unwrap_or("").to_string();
    let digits: Vec<u8> = text
        .lines()
        .map(line)
        .collect::<String>()
        .chars()
        .filter_map(|digit| digit.to_digit(16))
        .map(|digit| digit as u8)
        .collect();
    Some(digits.chunks(2).map(|pair| pair.iter().fold(0, |byte, digit| byte * 16 + digit)).collect())
}

fn with_ending(folder: &Path, ending: &str) -> io::Result<Vec<PathBuf>> {
    let mut paths = Vec::new();
    for entry in fs::read_dir(folder)? {
        let path = entry?.path();
        if path.extension().is_some_and(|found| found == ending) {
            paths.push(path);
        }
    }
    paths.sort();
    Ok(paths)
}

// Starts that fail.

/// Starts a program without a file, and with files that can't be opened or written. Each time it has
/// to end with status 1 and say why in one line. Tells how many starts there are and how many went wrong.
fn failing_starts(program: &Program, root: &Path) -> io::Result<(usize, usize)> {
    let work = work_folder(root, 0);
    fs::create_dir_all(&work)?;
    let script = "printf 'begin 0 latest\\ncommit 0\\nshow\\n' | ";
    let starts = [
        ("no argument", "\"$0\"".to_string()),
        ("two names", "\"$0\" file file".to_string()),
        ("a folder", "\"$0\" .".to_string()),
        ("a device", "\"$0\" /dev/full".to_string()),
        ("a file in a folder that is not there", "\"$0\" nowhere/file".to_string()),
        ("a file that can't grow", format!("trap '' XFSZ; ulimit -f 0; {script}\"$0\" file")),
        ("an output that can't be written", format!("{script}\"$0\" file >/dev/full")),
    ];
    let mut wrong = 0;
    for (what, line) in &starts {
        let mut command = Command::new("sh");
        command.args(["-c", line]).arg(&program.path).current_dir(&work).stdin(Stdio::null());
        let done = command.output()?;
        let said = String::from_utf8_lossy(&done.stderr);
        if done.status.code() != Some(1) || !done.stdout.is_empty() || said.lines().count() != 1 {
            wrong += 1;
            let printed = String::from_utf8_lossy(&done.stdout);
            println!("{} started with {what}: {}, printed `{printed}`, said `{said}`", program.name, done.status);
        }
    }
    fs::remove_dir_all(&work)?;
    Ok((starts.len(), wrong))
}

// Planted bugs.

/// A bug to plant: text that stands once in the reference, and what takes its place.
struct Bug {
    name: String,
    mode: Mode,
    old: String,
    new: String,
}

impl Bug {
    fn read(path: &Path) -> io::Result<Bug> {
        let text = fs::read_to_string(path)?;
        let part = |label: &str| text.lines().find_map(|line| line.strip_prefix(label)).unwrap_or("").to_string();
        let mode = if part("mode: ") == "lineup" { Mode::Lineup } else { Mode::File };
        let name = path.file_stem().unwrap_or_default().to_string_lossy().into_owned();
        Ok(Bug { name, mode, old: part("old: "), new: part("new: ") })
    }

    /// Builds the reference with the bug in it.
    fn build(&self, root: &Path) -> Result<PathBuf, String> {
        let folder = root.join("target/reference/bugs");
        let problem = |problem: io::Error| problem.to_string();
        fs::create_dir_all(&folder).map_err(problem)?;
        let text = fs::read_to_string(root.join("reference/reference.rs")).map_err(problem)?;
        if self.old.is_empty() || text.matches(&self.old).count() != 1 {
            return Err(format!("`{}` does not stand once in reference.rs", self.old));
        }
        let (source, binary) = (folder.join(format!("{}.rs", self.name)), folder.join(&self.name));
        fs::write(&source, text.replace(&self.old, &self.new)).map_err(problem)?;
        let rustc = std::env::var("RUSTC").unwrap_or("rustc".into());
        let built = Command::new(rustc)
            .args(["-C", "debug-assertions=off", "--edition", "2021", "--cap-lints", "allow"])
            .args(["--crate-name", "planted", "-o"])
            .args([&binary, &source])
            .output()
            .map_err(problem)?;
        match built.status.success() {
            true => Ok(binary),
            false => Err(String::from_utf8_lossy(&built.stderr).into_owned()),
        }
    }
}

/// Plants each bug, and shows that the random scripts find it. First it shows that they find none
/// where none was planted.
fn selftest(options: &Options) -> Result<bool, String> {
    let plain = Options { scripts: options.scripts.min(200), pass: None, mode: Mode::File, ..options.clone() };
    let pair = Match::new(&plain, options.root.join("target/reference/reference"));
    if let Some(found) = pair.seeds(&plain, &Mutex::default()).map_err(|problem| problem.to_string())? {
        return Err(format!("the reference differs from itself at seed {}: {}", found.seed, found.what));
    }
    let mut all_found = true;
    let mut count = 0;
    let paths = with_ending(&options.root.join("reference/bugs"), "edit").map_err(|problem| problem.to_string())?;
    for path in paths {
        let bug = Bug::read(&path).map_err(|problem| problem.to_string())?;
        if options.only.as_ref().is_some_and(|only| *only != bug.name) {
            continue;
        }
        let binary = bug.build(&options.root).map_err(|problem| format!("{}: {problem}", bug.name))?;
        let pass = (bug.mode == Mode::Lineup).then(|| "--lineup".to_string());
        let options = Options { mode: bug.mode, scripts: options.scripts.min(200), pass, ..options.clone() };
        let pair = Match::new(&options, binary);
        let found = pair.seeds(&options, &Mutex::default()).map_err(|problem| problem.to_string())?;
        match found {
            Some(found) => println!("{}: found at seed {}: {}", bug.name, found.seed, found.what),
            None => {
                println!("{}: NOT FOUND in {} scripts", bug.name, options.scripts);
                all_found = false;
            }
        }
        count += 1;
        let _ = io::stdout().flush();
    }
    println!("{count} planted bugs, {}", if all_found { "all found" } else { "not all found" });
    Ok(all_found)
}

fn compare(options: &Options) -> Result<bool, String> {
    let usual = if options.mode == Mode::Lineup { "target/bin/lineup" } else { "target/bin/engine" };
    let engine = options.engine.clone().unwrap_or(options.root.join(usual));
    let engine = fs::canonicalize(&engine).map_err(|_| format!("there is no program {}", engine.display()))?;
    let start = Instant::now();
    let pair = Match::new(options, engine);
    let (count, wrong) = written_cases(&pair).map_err(|problem| problem.to_string())?;
    println!("{count} hand-written cases, {wrong} answers wrong");
    let mut failed = 0;
    if options.mode == Mode::File {
        for program in [&pair.reference, &pair.engine] {
            let (starts, wrong) = failing_starts(program, &pair.root).map_err(|problem| problem.to_string())?;
            println!("{}: {starts} starts that have to fail, {wrong} wrong", program.name);
            failed += wrong;
        }
    }
    let statistics = Mutex::default();
    let found = pair.seeds(options, &statistics).map_err(|problem| problem.to_string())?;
    statistics.lock().unwrap().print();
    let seconds = start.elapsed().as_secs_f32();
    match &found {
        Some(found) => pair.report(found).map_err(|problem| problem.to_string())?,
        None => println!("{} seeds from {}: no difference ({seconds:.1} s)", options.scripts, options.seed),
    }
    Ok(wrong + failed == 0 && found.is_none())
}

fn main() -> ExitCode {
    let outcome = options().and_then(|options| match options.selftest {
        true => selftest(&options),
        false => compare(&options),
    });
    match outcome {
        Ok(true) => ExitCode::SUCCESS,
        Ok(false) => ExitCode::from(1),
        Err(problem) => {
            eprintln!("compare: {problem}");
            ExitCode::from(2)
        }
    }
}
