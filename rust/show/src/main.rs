//! `show PROGRAM FILE`: runs the session program on a file of cells, and prints what it answers in words and as it is.
//! `show PROGRAM TYPED FILE`: the same for a file of typed commands, which the program TYPED turns into cells.

use std::error::Error;
use std::fs::File;
use std::io::{self, ErrorKind, Write};
use std::process::{Command, ExitCode, Stdio};
use std::{env, fs};

use show::{file, listing, table};

/// What the program prints for these cells.
fn run(program: &str, cells: &[u16]) -> io::Result<String> {
    let bytes: Vec<u8> = cells.iter().flat_map(|cell| cell.to_be_bytes()).collect();
    let mut child = Command::new(program)
        .stdin(Stdio::piped())
        .stdout(Stdio::piped())
        .spawn()?;
    if let Some(mut input) = child.stdin.take() {
        // It reads no more than it takes; what is left shows that there were too many.
        match input.write_all(&bytes) {
            Err(error) if error.kind() != ErrorKind::BrokenPipe => return Err(error),
            _ => (),
        }
    }
    let output = child.wait_with_output()?;
    Ok(String::from_utf8_lossy(&output.stdout).into_owned())
}

/// The file of cells that typed commands become; where a line is wrong, the words for it.
fn cells_of_typed(typed: &str, path: &str) -> Result<String, String> {
    let file = File::open(path).map_err(|error| format!("{path}: {error}"))?;
    let output = Command::new(typed).stdin(file).output();
    let output = output.map_err(|error| format!("{typed}: {error}"))?;
    if !output.status.success() {
        let wrong = String::from_utf8_lossy(&output.stderr);
        return Err(format!("{path}, {}", wrong.trim_end()));
    }
    Ok(String::from_utf8_lossy(&output.stdout).into_owned())
}

fn show(program: &str, typed: Option<&str>, path: &str) -> Result<(), Box<dyn Error>> {
    let text = match typed {
        Some(typed) => cells_of_typed(typed, path)?,
        None => fs::read_to_string(path).map_err(|error| format!("{path}: {error}"))?,
    };
    let session = file::read(&text).map_err(|wrong| format!("{path}, {wrong}"))?;
    let printed = run(program, &session.cells).map_err(|error| format!("{program}: {error}"))?;
    println!("{path}, {} cells, in words:\n", session.cells.len());
    match listing::read(&printed) {
        Some(listing) => println!(
            "{}",
            table(&session, &listing).ok_or("the words don't agree with the listing")?
        ),
        None => println!("bad input: a session has at most 4,096 cells\n"),
    }
    print!("What the session program prints:\n\n{printed}");
    Ok(())
}

fn main() -> ExitCode {
    let arguments: Vec<String> = env::args().skip(1).collect();
    let words: Vec<&str> = arguments.iter().map(String::as_str).collect();
    let shown = match words[..] {
        [program, path] => show(program, None, path),
        [program, typed, path] => show(program, Some(typed), path),
        _ => {
            eprintln!("usage: show PROGRAM [TYPED] FILE");
            return ExitCode::from(2);
        }
    };
    match shown {
        Ok(()) => ExitCode::SUCCESS,
        Err(error) => {
            eprintln!("{error}");
            ExitCode::FAILURE
        }
    }
}
