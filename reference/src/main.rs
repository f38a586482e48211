//! `reference SCRIPT`: carries out a job script and prints its record. `-` is standard input.

use std::ffi::OsString;
use std::io::{self, BufWriter, ErrorKind, Read};
use std::process::ExitCode;

fn main() -> ExitCode {
    let mut words: Vec<OsString> = std::env::args_os().skip(1).collect();
    // `reference run SCRIPT` does the same, so that it can stand in for the product.
    if words.len() == 2 && words[0] == "run" {
        words.remove(0);
    }
    let [script] = words.as_slice() else {
        eprintln!("usage: reference SCRIPT");
        return ExitCode::from(1);
    };
    let script = match read(script) {
        Ok(script) => script,
        Err(why) => {
            eprintln!("{} cannot be read: {why}", script.to_string_lossy());
            return ExitCode::from(1);
        }
    };
    let mut out = BufWriter::with_capacity(1 << 16, io::stdout().lock());
    match reference::run::run(&script, &mut out) {
        Ok(()) => ExitCode::SUCCESS,
        Err(why) if why.kind() == ErrorKind::BrokenPipe => ExitCode::SUCCESS,
        Err(why) => {
            eprintln!("the record cannot be written: {why}");
            ExitCode::from(1)
        }
    }
}

fn read(script: &OsString) -> io::Result<Vec<u8>> {
    if script == "-" {
        let mut held = Vec::new();
        io::stdin().lock().read_to_end(&mut held)?;
        Ok(held)
    } else {
        std::fs::read(script)
    }
}
