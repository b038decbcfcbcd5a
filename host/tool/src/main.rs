//! `dihyravo`: squares up photographs from the shell. Pictures are warped by the proved library; this program reads
//! what people write, reads and writes files, and says what came of it.

mod arguments;
mod failure;
mod file;
mod job;
mod names;
mod progress;
mod remarks;
mod report;
mod text;

use arguments::{Arguments, Command};
use clap::Parser;
use clap::error::ErrorKind;
use failure::Failure;
use job::Job;
use std::any::Any;
use std::io::{self, Write};
use std::panic::catch_unwind;
use std::process::ExitCode;

fn main() -> ExitCode {
    // A decoder that panics on a broken file is told in one line, as any other failure.
    std::panic::set_hook(Box::new(|_| ()));
    let json = std::env::args_os().any(|word| word == "--json");
    let done = catch_unwind(run).unwrap_or_else(|panic| Err(fault(panic)));
    match done.and_then(|text| print(&text)) {
        Ok(()) => ExitCode::SUCCESS,
        Err(failure) => {
            let told = match json {
                true => writeln!(io::stdout(), "{}", report::failure_json(&failure)),
                false => writeln!(io::stderr(), "dihyravo: {failure}"),
            };
            // Where nobody listens the status still tells.
            let _ = told;
            ExitCode::from(failure.status())
        }
    }
}

/// A fault of this program, with the words of its panic.
fn fault(panic: Box<dyn Any + Send>) -> Failure {
    let text = panic.downcast_ref::<String>().map(String::as_str);
    let words = text
        .or_else(|| panic.downcast_ref::<&str>().copied())
        .unwrap_or("no words");
    Failure::unusable(format!(
        "a fault of this program, please report it: {words}"
    ))
}

/// What to print on standard output.
fn run() -> Result<String, Failure> {
    let arguments = match Arguments::try_parse() {
        Ok(arguments) => arguments,
        Err(asked)
            if matches!(
                asked.kind(),
                ErrorKind::DisplayHelp | ErrorKind::DisplayVersion
            ) =>
        {
            return Ok(asked.to_string().trim_end().to_owned());
        }
        Err(wrong) => return Err(misused(&wrong)),
    };
    match &arguments.command {
        Command::Names(given) if given.json => Ok(names::json()),
        Command::Names(_) => Ok(names::table()),
        Command::Distort(given) => work(&Job::from_distort(given)?, given.options.json),
        Command::Square(given) => work(&Job::from_square(given)?, given.options.json),
    }
}

fn work(job: &Job, json: bool) -> Result<String, Failure> {
    let made = job.run()?;
    if json {
        return Ok(report::made_json(&made));
    }
    for note in &made.notes {
        // A remark that nobody reads stops nothing.
        let _ = writeln!(io::stderr(), "dihyravo: note: {note}");
    }
    Ok(report::made(&made))
}

/// The parser's words, which take several lines, in one.
fn misused(wrong: &clap::Error) -> Failure {
    if wrong.kind() == ErrorKind::DisplayHelpOnMissingArgumentOrSubcommand {
        return Failure::unusable(
            "a command is missing: square, distort or names (see 'dihyravo --help')",
        );
    }
    let text = wrong.to_string();
    let words = text.split("\n\nUsage:").next().unwrap_or(&text);
    let words = words
        .split("\n\nFor more information")
        .next()
        .unwrap_or(words);
    let words = words.strip_prefix("error: ").unwrap_or(words);
    let lines = words.lines().map(str::trim).filter(|line| !line.is_empty());
    let line = lines.collect::<Vec<_>>().join(" ");
    let command = std::env::args().nth(1);
    let command = command.filter(|word| ["square", "distort", "names"].contains(&word.as_str()));
    let help = command.map_or("--help".to_owned(), |word| format!("{word} --help"));
    Failure::unusable(format!("{line} (see 'dihyravo {help}')"))
}

fn print(text: &str) -> Result<(), Failure> {
    match writeln!(io::stdout(), "{text}") {
        Err(why) if why.kind() != io::ErrorKind::BrokenPipe => Err(Failure::unusable(format!(
            "standard output can't be written: {why}"
        ))),
        _ => Ok(()),
    }
}
