//! The harness: compares the proved functions with an independent simulator, and times them beside plain Rust.

mod compare;
mod gen;
mod guarded;
#[path = "../../rust/musselrung/mod.rs"]
mod musselrung;
mod of_plain;
mod of_proved;
mod plain;
mod rng;
mod simulator;
mod subject;
mod time;

use compare::Subject;
use std::io::Write;
use std::process::exit;
use std::time::Instant;

const USAGE: &str = "usage:
  compare-and-time/compare [SUBJECT] [--full] [--seed N] [--only N] [--plain]
  compare-and-time/compare report FILE
  compare-and-time/time [--keep] [--no-gate]

Without a SUBJECT all are compared. --full is the long round, --only runs one case of a subject again, and --plain holds the
plain Rust versions to the simulator in place of the proved ones. `report` prints what the simulator says of a trace file.
SUBJECT is one of";

fn usage() -> String {
    let names: Vec<&str> = of_proved::subjects().iter().map(|subject| subject.name).collect();
    format!("{USAGE} {}.", names.join(", "))
}

fn main() {
    let words: Vec<String> = std::env::args().skip(1).collect();
    let words: Vec<&str> = words.iter().map(String::as_str).collect();
    let ended = match words[..] {
        ["compare", "report", file] => report(file),
        ["compare", ..] => Wanted::from(&words[1..]).and_then(|wanted| wanted.run()),
        ["time"] => {
            let mut lines = time::whole_traces::<of_proved::Proved, of_plain::Plain>();
            lines.extend(time::tables::<of_proved::Proved, of_plain::Plain>());
            lines.extend(time::sessions::<musselrung::Session, plain::session::Session>());
            lines.extend(time::rows::<musselrung::Row, plain::row::Row>());
            lines.extend(time::banks::<musselrung::Banks, plain::banks::Banks>());
            print!("{}", time::table(&lines));
            Ok(())
        }
        _ => Err(usage()),
    };
    if let Err(fault) = ended {
        eprintln!("{fault}");
        exit(1);
    }
}

/// Prints what the program `report` has to print of a file.
fn report(file: &str) -> Result<(), String> {
    let bytes = std::fs::read(file).map_err(|fault| format!("{file}: {fault}"))?;
    print!("{}", simulator::file::report(&bytes));
    Ok(())
}

/// What `compare` was asked for.
#[derive(Default)]
struct Wanted {
    subject: Option<String>,
    full: bool,
    plain: bool,
    seed: u64,
    only: Option<u64>,
}

impl Wanted {
    fn from(words: &[&str]) -> Result<Wanted, String> {
        let mut wanted = Wanted { seed: 1, ..Wanted::default() };
        let mut words = words.iter();
        while let Some(&word) = words.next() {
            let mut number = || words.next().and_then(|word| word.parse().ok()).ok_or_else(usage);
            match word {
                "--full" => wanted.full = true,
                "--plain" => wanted.plain = true,
                "--seed" => wanted.seed = number()?,
                "--only" => wanted.only = Some(number()?),
                name if wanted.subject.is_none() && !name.starts_with('-') => wanted.subject = Some(name.to_string()),
                _ => return Err(usage()),
            }
        }
        Ok(wanted)
    }

    fn run(&self) -> Result<(), String> {
        let mut subjects = if self.plain { of_plain::subjects() } else { of_proved::subjects() };
        if let Some(name) = &self.subject {
            subjects.retain(|subject| subject.name == name);
        }
        if subjects.is_empty() || self.only.is_some() && subjects.len() > 1 {
            return Err(usage());
        }
        simulator::marked::hold();
        println!("seed {}", self.seed);
        subjects.iter().try_for_each(|subject| self.round(subject))
    }

    fn round(&self, subject: &Subject) -> Result<(), String> {
        print!("{}: ", subject.name);
        let _ = std::io::stdout().flush();
        let began = Instant::now();
        let cases = if self.full { subject.full } else { subject.short };
        let (from, to) = self.only.map_or((0, cases), |case| (case, case + 1));
        let tally = subject.run(self.seed, from, to)?;
        if self.only.is_none() {
            subject.complete(&tally)?;
        }
        let given: Vec<String> = tally.given().iter().map(|(number, times)| format!("{number}:{times}")).collect();
        println!(
            "{} cases, {} answers the same; refusals {}; {} sets of them at once; {:.1} s",
            to - from,
            tally.answers,
            given.join(" "),
            tally.sets.keys().filter(|set| set.len() > 1).count(),
            began.elapsed().as_secs_f64()
        );
        Ok(())
    }
}
