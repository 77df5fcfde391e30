//! Runs a script from standard input, with the options, the lines and the statuses of the program `trac`, but for the
//! lines on options that it doesn't take. Std takes a standard device that is closed for one that is empty.
use std::env;
use std::io::{Write, stderr, stdin, stdout};
use std::process::ExitCode;
use trac_t64::{Cell, Fate, Input, MOST_CELLS, Machine, Output, Report};

const HELP: &str = "Runs a TRAC T-64 script from standard input

Usage: run [OPTIONS] < SCRIPT

Options:
      --cells <N>  Cells of the workspace, 1 to 16777216 [default: 65536]
      --steps <N>  Steps that are allowed, 1 to 1000000000000 [default: 1000000]
      --report     Print the steps and the peak
  -h, --help       Print help
";

// A block is made of copies of these.
const BLANKS: [Cell; 254] = [Cell::Byte(0); 254];

struct Settings {
    cells: u64,
    steps: u64,
    report: bool,
    help: bool,
}

/// The number of an option, which stands behind `=` or is the next word.
fn number(
    name: &str,
    inside: Option<&str>,
    words: &mut impl Iterator<Item = String>,
    most: u64,
) -> Result<u64, String> {
    let word = inside.map(String::from).or_else(|| words.next());
    let word = word.ok_or(format!("{name} needs a number"))?;
    let number = word.parse().ok().filter(|number| (1..=most).contains(number));
    number.ok_or(format!("{name} takes a number from 1 to {most}, and not '{word}'"))
}

fn settings(mut words: impl Iterator<Item = String>) -> Result<Settings, String> {
    let mut found = Settings { cells: 65_536, steps: 1_000_000, report: false, help: false };
    let mut seen = Vec::new();
    while let Some(word) = words.next() {
        let (name, inside) = word.split_once('=').map_or((&word[..], None), |(name, number)| (name, Some(number)));
        if seen.iter().any(|before| before == name) {
            return Err(format!("{name} is given twice"));
        }
        match (name, inside) {
            ("--cells", _) => found.cells = number(name, inside, &mut words, MOST_CELLS as u64)?,
            ("--steps", _) => found.steps = number(name, inside, &mut words, 1_000_000_000_000)?,
            ("--report", None) => found.report = true,
            ("-h" | "--help", None) => found.help = true,
            _ => return Err(format!("'{word}' is no option")),
        }
        seen.push(name.to_string());
    }
    Ok(found)
}

/// A block of so many cells. None if there is no memory for it.
fn block(cells: u64) -> Option<Vec<Cell>> {
    let cells = usize::try_from(cells).ok()?;
    let mut block = Vec::new();
    block.try_reserve_exact(cells).ok()?;
    while block.len() < cells {
        block.extend_from_slice(&BLANKS[..BLANKS.len().min(cells - block.len())]);
    }
    Some(block)
}

/// The status of a run, and the line on what went wrong.
fn ended(report: &Report, settings: &Settings) -> (u8, Option<String>) {
    let step = u128::from(report.steps) + 1;
    match report.fate {
        Fate::Halted | Fate::InputEnded => (0, None),
        Fate::Workspace => (1, Some(format!("workspace of {} cells full at step {step}", settings.cells))),
        Fate::Steps => (3, Some(format!("allowance of {} steps used up", settings.steps))),
        Fate::InputFailed => (4, Some(format!("input failed at step {step}"))),
        Fate::OutputFailed => (5, Some(format!("output failed at step {step}"))),
    }
}

/// Says a line on standard error, in one write. If that fails, nothing can be said.
fn say(line: &str) {
    let _ = stderr().write_all(format!("{line}\n").as_bytes());
}

fn run(settings: &Settings) -> ExitCode {
    let Some(mut block) = block(settings.cells) else {
        say(&format!("trac: no memory for {} cells", settings.cells));
        return ExitCode::from(6);
    };
    let Ok(machine) = Machine::try_over(&mut block, settings.steps) else {
        return ExitCode::from(2);
    };
    let report = machine.run(&mut Input::new(stdin().lock()), &mut Output::new(stdout().lock()));
    if settings.report {
        say(&format!("trac: {} steps, peak {} cells", report.steps, report.peak));
    }
    let (status, line) = ended(&report, settings);
    if let Some(line) = line {
        say(&format!("trac: {line}"));
    }
    ExitCode::from(status)
}

fn main() -> ExitCode {
    match settings(env::args_os().skip(1).map(|word| word.to_string_lossy().into_owned())) {
        Ok(settings) if settings.help => match stdout().write_all(HELP.as_bytes()).and_then(|()| stdout().flush()) {
            Ok(()) => ExitCode::SUCCESS,
            Err(_) => ExitCode::from(5),
        },
        Ok(settings) => run(&settings),
        Err(line) => {
            say(&format!("error: {line}\n\nFor more information, try '--help'."));
            ExitCode::from(2)
        }
    }
}
