//! `compare PROGRAM FIRST COUNT [FOLDER]`: has another program and the reference carry out the
//! same scripts, and tells the first difference.
//!
//! The program is started as `PROGRAM run SCRIPT`, and for some seeds as `PROGRAM run -` with the
//! script on its standard input. Records are compared line by line; of an error only that it is
//! one. A script with a difference is written to FOLDER, which is the present one if left out.

use reference::{run, scripts};
use std::fs::{self, File};
use std::io::{self, Read, Write};
use std::path::{Path, PathBuf};
use std::process::{Child, Command, ExitCode, ExitStatus, Stdio};
use std::sync::Mutex;
use std::sync::atomic::{AtomicBool, AtomicU64, Ordering};
use std::thread;
use std::time::{Duration, Instant};

const THREADS: usize = 2;

/// A program that takes longer for one script is ended.
const LONGEST: Duration = Duration::from_secs(120);

/// The largest record that is compared, in bytes.
const LARGEST: usize = 1 << 28;

/// One seed of so many has its script on standard input.
const ON_INPUT: u64 = 8;

struct Task {
    program: PathBuf,
    first: u64,
    count: u64,
    /// Where differing scripts go.
    kept: PathBuf,
    /// Where scripts are carried out.
    desk: PathBuf,
}

struct Difference {
    seed: u64,
    told: String,
}

fn main() -> ExitCode {
    let task = match task() {
        Ok(task) => task,
        Err(why) => {
            eprintln!("{why}");
            eprintln!("usage: compare PROGRAM FIRST COUNT [FOLDER]");
            return ExitCode::from(2);
        }
    };
    let outcome = compare_all(&task);
    let _ = std::env::set_current_dir("/");
    let _ = fs::remove_dir_all(&task.desk);
    match outcome {
        Ok(None) => {
            println!("{} scripts, no difference", task.count);
            ExitCode::SUCCESS
        }
        Ok(Some(difference)) => {
            print!("{}", difference.told);
            ExitCode::from(1)
        }
        Err(why) => {
            eprintln!("the comparison cannot go on: {why}");
            ExitCode::from(2)
        }
    }
}

fn task() -> Result<Task, String> {
    let words: Vec<String> = std::env::args().skip(1).collect();
    let (program, first, count, kept) = match words.as_slice() {
        [program, first, count] => (program, first, count, "."),
        [program, first, count, kept] => (program, first, count, kept.as_str()),
        _ => return Err("three words or four".into()),
    };
    let program = fs::canonicalize(program).map_err(|why| format!("{program}: {why}"))?;
    fs::create_dir_all(kept).map_err(|why| format!("{kept}: {why}"))?;
    let kept = fs::canonicalize(kept).map_err(|why| format!("{kept}: {why}"))?;
    let first = first.parse().map_err(|_| format!("{first} is no number"))?;
    let count = count.parse().map_err(|_| format!("{count} is no number"))?;
    let desk = lay_desk().map_err(|why| format!("no place for scripts: {why}"))?;
    Ok(Task {
        program,
        first,
        count,
        kept,
        desk,
    })
}

/// A folder of its own, with the files that scripts name, which is made the present one.
fn lay_desk() -> io::Result<PathBuf> {
    let quick = Path::new("/dev/shm");
    let base = if quick.is_dir() {
        quick.to_path_buf()
    } else {
        std::env::temp_dir()
    };
    let desk = base.join(format!("compare-{}", std::process::id()));
    fs::create_dir_all(&desk)?;
    for (name, bytes) in scripts::files() {
        fs::write(desk.join(name), bytes)?;
    }
    std::env::set_current_dir(&desk)?;
    Ok(desk)
}

/// A program that is running, and since when.
type Running = Mutex<Option<(Child, Instant)>>;

fn compare_all(task: &Task) -> io::Result<Option<Difference>> {
    let next = AtomicU64::new(task.first);
    let lowest = AtomicU64::new(u64::MAX);
    let found: Mutex<Vec<Difference>> = Mutex::new(Vec::new());
    let broken: Mutex<Option<io::Error>> = Mutex::new(None);
    let running: Vec<Running> = (0..THREADS).map(|_| Mutex::new(None)).collect();
    let over = AtomicBool::new(false);
    thread::scope(|scope| {
        scope.spawn(|| watch(&running, &over));
        let workers: Vec<_> = (0..THREADS)
            .map(|number| {
                let (next, lowest, found, broken, own) = (&next, &lowest, &found, &broken, &running[number]);
                scope.spawn(move || {
                    loop {
                        let seed = next.fetch_add(1, Ordering::SeqCst);
                        let done = seed - task.first >= task.count || seed > lowest.load(Ordering::SeqCst);
                        if done || broken.lock().unwrap().is_some() {
                            return;
                        }
                        match compare_one(task, number, own, seed) {
                            Ok(None) => {}
                            Ok(Some(difference)) => {
                                lowest.fetch_min(seed, Ordering::SeqCst);
                                found.lock().unwrap().push(difference);
                            }
                            Err(why) => *broken.lock().unwrap() = Some(why),
                        }
                    }
                })
            })
            .collect();
        for worker in workers {
            let _ = worker.join();
        }
        over.store(true, Ordering::SeqCst);
    });
    if let Some(why) = broken.into_inner().unwrap() {
        return Err(why);
    }
    let mut found = found.into_inner().unwrap();
    found.sort_by_key(|difference| difference.seed);
    Ok(found.into_iter().next())
}

/// Ends programs that take too long.
fn watch(running: &[Running], over: &AtomicBool) {
    while !over.load(Ordering::SeqCst) {
        thread::sleep(Duration::from_millis(100));
        for own in running {
            if let Some((child, since)) = own.lock().unwrap().as_mut() {
                if since.elapsed() > LONGEST {
                    let _ = child.kill();
                }
            }
        }
    }
}

fn compare_one(task: &Task, worker: usize, own: &Running, seed: u64) -> io::Result<Option<Difference>> {
    let script = scripts::script(seed);
    let mut expected = Vec::new();
    run::run(&script, &mut Bounded { held: &mut expected })?;
    let (answered, status, complaint) = other(task, worker, own, seed, &script)?;
    let mut told = String::new();
    if let Some(difference) = first_difference(&script, &expected, &answered) {
        told = difference;
    } else if !status.success() {
        told = format!("the program ended with {status}\n");
    }
    if told.is_empty() {
        return Ok(None);
    }
    let file = task.kept.join(format!("difference-{seed}.script"));
    fs::write(&file, &script)?;
    let mut text = format!("seed {seed}, script in {}\n{told}", file.display());
    if !status.success() || !complaint.is_empty() {
        text += &format!(
            "  the program ended with {status} and said: {}\n",
            cut(complaint.trim())
        );
    }
    Ok(Some(Difference { seed, told: text }))
}

/// A record that grows without end would be a fault of the generator, and ends the comparison.
struct Bounded<'a> {
    held: &'a mut Vec<u8>,
}

impl Write for Bounded<'_> {
    fn write(&mut self, bytes: &[u8]) -> io::Result<usize> {
        if self.held.len() + bytes.len() > LARGEST {
            return Err(io::Error::other("a record is too large to be compared"));
        }
        self.held.extend_from_slice(bytes);
        Ok(bytes.len())
    }

    fn flush(&mut self) -> io::Result<()> {
        Ok(())
    }
}

/// Has the other program carry out a script.
fn other(
    task: &Task,
    worker: usize,
    own: &Running,
    seed: u64,
    script: &[u8],
) -> io::Result<(Vec<u8>, ExitStatus, String)> {
    let file = task.desk.join(format!("{worker}.script"));
    let said = task.desk.join(format!("{worker}.said"));
    fs::write(&file, script)?;
    let mut command = Command::new(&task.program);
    command.arg("run");
    if seed % ON_INPUT == 3 {
        command.arg("-").stdin(File::open(&file)?);
    } else {
        command.arg(&file).stdin(Stdio::null());
    }
    let mut child = command.stdout(Stdio::piped()).stderr(File::create(&said)?).spawn()?;
    let mut out = child.stdout.take().ok_or_else(|| io::Error::other("no output"))?;
    *own.lock().unwrap() = Some((child, Instant::now()));
    let mut answered = Vec::new();
    let read = out.read_to_end(&mut answered);
    let (mut child, _) = own
        .lock()
        .unwrap()
        .take()
        .ok_or_else(|| io::Error::other("no program"))?;
    let status = child.wait()?;
    read?;
    let complaint = fs::read(&said)?;
    Ok((answered, status, String::from_utf8_lossy(&complaint).into_owned()))
}

/// The first lines that differ, told for a person.
fn first_difference(script: &[u8], expected: &[u8], answered: &[u8]) -> Option<String> {
    if expected == answered {
        return None;
    }
    let mut ours = expected.split(|byte| *byte == b'\n');
    let mut theirs = answered.split(|byte| *byte == b'\n');
    let mut line = 0;
    loop {
        let (our, their) = (ours.next(), theirs.next());
        if our.is_none() && their.is_none() {
            return None;
        }
        line = our.and_then(line_number).unwrap_or(line);
        if our.map(weighed) != their.map(weighed) {
            let asked = script.split(|byte| *byte == b'\n').nth(line.max(1) - 1).unwrap_or(b"");
            return Some(format!(
                "line {line}: {}\n  reference: {}\n  program:   {}\n",
                cut(&String::from_utf8_lossy(asked)),
                shown(our),
                shown(their)
            ));
        }
    }
}

/// The number that a record stands behind.
fn line_number(record: &[u8]) -> Option<usize> {
    let digits = record.split(|byte| *byte == b':').next()?;
    std::str::from_utf8(digits).ok()?.parse().ok()
}

/// A record as far as it counts: of an error its text does not.
fn weighed(record: &[u8]) -> &[u8] {
    let end = record.windows(7).position(|part| part == b": error");
    match end {
        Some(at) if record[..at].iter().all(u8::is_ascii_digit) => &record[..at + 7],
        _ => record,
    }
}

fn shown(record: Option<&[u8]>) -> String {
    match record {
        Some(record) => cut(&String::from_utf8_lossy(record)),
        None => "(the record has ended)".into(),
    }
}

/// A long line is cut.
fn cut(line: &str) -> String {
    if line.chars().count() <= 600 {
        line.into()
    } else {
        line.chars().take(600).collect::<String>() + "..."
    }
}
