//! The command line; the README lists what it can do.

use std::io::{self, BufWriter, Read, Write};
use std::process::ExitCode;

use second::pace::{Run, What};
use second::{ask, compact, coverage, generate, images, probe, request, spoil, tape};

const USAGE: &str = "usage:
  second tape [FILE]
  second make tape SEED RECORDS
  second make bundle SEED TAPES RECORDS
  second make probes SEED COUNT
  second make images SEED COUNT
  second make requests SEED COUNT
  second compact [BUNDLE]
  second probe [FILE]
  second host [FILE]
  second coverage SEED TAPES RECORDS
  second probe-coverage SEED COUNT
  second image-coverage SEED COUNT
  second host-coverage SEED COUNT
  second pace read|write WIRES CLOCKS REPEATS N
  second pace gather WIRES CLOCKS REPEATS";

/// The named file, or standard input where none is named.
fn input(files: &[&str]) -> Result<Vec<u8>, String> {
    let mut bytes = Vec::new();
    match files {
        [] => {
            io::stdin()
                .lock()
                .read_to_end(&mut bytes)
                .map_err(|error| format!("standard input: {error}"))?;
        }
        [name] => bytes = std::fs::read(name).map_err(|error| format!("{name}: {error}"))?,
        _ => return Err(String::from(USAGE)),
    }
    Ok(bytes)
}

fn number<T: std::str::FromStr>(word: &str) -> Result<T, String> {
    word.parse()
        .map_err(|_| format!("not a number in range: {word}"))
}

/// The line of one run of `pace`. A gathering has no memory.
fn pace(what: What, wires: &str, clocks: &str, repeats: &str, n: &str) -> Result<String, String> {
    let run = Run {
        what,
        wires: number(wires)?,
        clocks: number(clocks)?,
        repeats: number(repeats)?,
        n: number(n)?,
    };
    if run.is_whole() {
        Ok(run.line())
    } else {
        Err(String::from(USAGE))
    }
}

fn run(words: &[&str], out: &mut dyn Write) -> Result<(), String> {
    let written = match words {
        ["tape", files @ ..] => {
            let bytes = input(files)?;
            out.write_all(tape::bench(&bytes).as_bytes())
        }
        ["make", "tape", seed, records] => {
            out.write_all(&generate::tape(number(seed)?, number(records)?))
        }
        ["make", "bundle", seed, tapes, records] => out.write_all(&generate::bundle(
            number(seed)?,
            number(tapes)?,
            number(records)?,
        )),
        ["make", "probes", seed, count] => {
            out.write_all(&spoil::probes(number(seed)?, number(count)?))
        }
        ["make", "images", seed, count] => {
            out.write_all(&images::images(number(seed)?, number(count)?))
        }
        ["make", "requests", seed, count] => {
            out.write_all(&ask::requests(number(seed)?, number(count)?))
        }
        ["compact", files @ ..] => {
            let bytes = input(files)?;
            compact::compact(&bytes, &mut |line| out.write_all(line.as_bytes()))
        }
        ["probe", files @ ..] => {
            let bytes = input(files)?;
            probe::probe(&bytes, &mut |line| out.write_all(line.as_bytes()))
        }
        ["host", files @ ..] => {
            let bytes = input(files)?;
            request::host(&bytes, &mut |line| out.write_all(line.as_bytes()))
        }
        ["coverage", seed, tapes, records] => {
            let (text, _) = coverage::of_bundle(number(seed)?, number(tapes)?, number(records)?);
            out.write_all(text.as_bytes())
        }
        ["probe-coverage", seed, count] => {
            let (text, _) = coverage::of_probes(number(seed)?, number(count)?);
            out.write_all(text.as_bytes())
        }
        ["image-coverage", seed, count] => {
            let (text, _) = coverage::of_images(number(seed)?, number(count)?);
            out.write_all(text.as_bytes())
        }
        ["host-coverage", seed, count] => {
            let (text, _) = coverage::of_requests(number(seed)?, number(count)?);
            out.write_all(text.as_bytes())
        }
        ["pace", "read", wires, clocks, repeats, n] => {
            out.write_all(pace(What::Read, wires, clocks, repeats, n)?.as_bytes())
        }
        ["pace", "write", wires, clocks, repeats, n] => {
            out.write_all(pace(What::Write, wires, clocks, repeats, n)?.as_bytes())
        }
        ["pace", "gather", wires, clocks, repeats] => {
            out.write_all(pace(What::Gather, wires, clocks, repeats, "0")?.as_bytes())
        }
        _ => return Err(String::from(USAGE)),
    };
    written
        .and_then(|()| out.flush())
        .map_err(|error| format!("output: {error}"))
}

fn main() -> ExitCode {
    // Arguments that are not text are still shown in the message, not a panic.
    let words: Vec<String> = std::env::args_os()
        .skip(1)
        .map(|word| word.to_string_lossy().into_owned())
        .collect();
    let words: Vec<&str> = words.iter().map(String::as_str).collect();
    let mut out = BufWriter::new(io::stdout().lock());
    match run(&words, &mut out) {
        Ok(()) => ExitCode::SUCCESS,
        Err(message) => {
            eprintln!("{message}");
            ExitCode::from(1)
        }
    }
}
