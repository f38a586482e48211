//! `generate FIRST COUNT FOLDER|-`: writes the scripts of so many seeds, from the first on.
//!
//! With a folder each script is a file SEED.script, and the files that scripts name lie
//! beside them. With `-` they follow each other on standard output.

use std::io::{self, BufWriter, Write};
use std::path::Path;
use std::process::ExitCode;

fn main() -> ExitCode {
    let words: Vec<String> = std::env::args().skip(1).collect();
    let told = match words.as_slice() {
        [first, count, to] => first
            .parse()
            .ok()
            .zip(count.parse().ok())
            .map(|(first, count)| (first, count, to)),
        _ => None,
    };
    let Some((first, count, to)) = told else {
        eprintln!("usage: generate FIRST COUNT FOLDER|-");
        return ExitCode::from(2);
    };
    match write_all(first, count, to) {
        Ok(()) => ExitCode::SUCCESS,
        Err(why) => {
            eprintln!("{why}");
            ExitCode::from(1)
        }
    }
}

fn write_all(first: u64, count: u64, to: &str) -> io::Result<()> {
    if to == "-" {
        let mut out = BufWriter::new(io::stdout().lock());
        for seed in (first..).take(count as usize) {
            out.write_all(&reference::scripts::script(seed))?;
        }
        return out.flush();
    }
    let folder = Path::new(to);
    std::fs::create_dir_all(folder)?;
    for (name, bytes) in reference::scripts::files() {
        std::fs::write(folder.join(name), bytes)?;
    }
    for seed in (first..).take(count as usize) {
        std::fs::write(folder.join(format!("{seed}.script")), reference::scripts::script(seed))?;
    }
    Ok(())
}
