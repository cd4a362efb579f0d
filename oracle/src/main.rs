//! Command line of the oracle; see README.md.

use std::env;
use std::io::{self, Read, Write};
use std::process::ExitCode;
use std::str::FromStr;

use oracle::answer::answer;
use oracle::case::Cases;
use oracle::generate::Generator;
use oracle::outcomes::Outcomes;
use oracle::text::{self, Titled};
use oracle::{desk, stored, LEFT_OUT};

const USAGE: &str = "\
usage: oracle answer                               answers to the cases on standard input
       oracle generate SEED COUNT [--outcomes]     cases, and how often each outcome occurs
       oracle stored flatten|scope|reading|desk    a stored list, made anew
       oracle unpack                               cases as text, with answers
       oracle pack                                 text as cases
       oracle desk PROGRAM                         runs a program on a list of desk's cases
       oracle bench                                time of flatten_rule alone
       oracle left-out                             published lines that are not compiled";

fn read_input() -> io::Result<Vec<u8>> {
    let mut bytes = Vec::new();
    io::stdin().lock().read_to_end(&mut bytes)?;
    Ok(bytes)
}

/// One line per case; a bad case ends the run.
fn answer_cases() -> io::Result<()> {
    let bytes = read_input()?;
    let mut out = io::BufWriter::new(io::stdout().lock());
    for case in Cases::new(&bytes) {
        match case {
            Ok(case) => writeln!(out, "{}", answer(&case).line(case.kind))?,
            Err(_) => writeln!(out, "bad case")?,
        }
    }
    out.flush()
}

/// Cases to standard output and, if asked, how often each outcome occurred to
/// standard error.
fn generate(seed: u64, count: usize, report: bool) -> io::Result<()> {
    let mut generator = Generator::new(seed);
    let mut outcomes = Outcomes::default();
    let mut out = io::BufWriter::new(io::stdout().lock());
    let mut bytes = Vec::new();
    for _ in 0..count {
        let case = generator.case();
        if report {
            outcomes.count(&case);
        }
        bytes.clear();
        case.write(&mut bytes);
        out.write_all(&bytes)?;
    }
    if report {
        eprint!("{outcomes}");
    }
    out.flush()
}

fn run_generate(seed: &str, count: &str, report: bool) -> io::Result<()> {
    generate(parsed(seed)?, parsed(count)?, report)
}

/// One of the stored lists, made anew.
fn stored_list(name: &str) -> io::Result<()> {
    let text = match name {
        "flatten" => stored::text(stored::FLATTEN_HEAD, &stored::flatten_cases()),
        "scope" => stored::text(stored::SCOPE_HEAD, &stored::scope_cases()),
        "reading" => stored::text(stored::READING_HEAD, &stored::reading_cases()),
        "desk" => desk::text(&desk::cases()),
        _ => return Err(io::Error::other(USAGE)),
    };
    io::stdout().write_all(text.as_bytes())
}

/// A binary list as text, with the oracle's answers.
fn unpack() -> io::Result<()> {
    let bytes = read_input()?;
    let mut out = io::BufWriter::new(io::stdout().lock());
    for case in Cases::new(&bytes) {
        let case = case.map_err(|_| io::Error::other("bad case"))?;
        let title = String::new();
        writeln!(out, "{}", text::block(&Titled { title, case }))?;
    }
    out.flush()
}

/// A list as text in binary; its answers are left out.
fn pack() -> io::Result<()> {
    let text = String::from_utf8(read_input()?).map_err(io::Error::other)?;
    let mut bytes = Vec::new();
    for answered in text::read(&text).map_err(io::Error::other)? {
        answered.case.write(&mut bytes);
    }
    io::stdout().write_all(&bytes)
}

/// Runs a program on each case of a list, and says how many it answered.
fn run_desk(program: &str) -> io::Result<()> {
    let text = String::from_utf8(read_input()?).map_err(io::Error::other)?;
    let cases = desk::read(&text).map_err(io::Error::other)?;
    for case in &cases {
        let printed = desk::run(program, &case.input)?;
        if printed != case.output {
            let fault = format!("{:?}: printed {}", case.title, desk::shown(&printed));
            return Err(io::Error::other(fault));
        }
    }
    println!("{} inputs answered as stored", cases.len());
    Ok(())
}

fn bench() -> io::Result<()> {
    let report = oracle::bench::report().map_err(io::Error::other)?;
    io::stdout().write_all(report.as_bytes())
}

fn parsed<T: FromStr>(text: &str) -> io::Result<T> {
    text.parse()
        .map_err(|_| io::Error::other(format!("not a number: {text}")))
}

fn main() -> ExitCode {
    let args: Vec<String> = env::args().skip(1).collect();
    let args: Vec<&str> = args.iter().map(String::as_str).collect();
    let result = match args[..] {
        ["answer"] => answer_cases(),
        ["generate", seed, count] => run_generate(seed, count, false),
        ["generate", seed, count, "--outcomes"] => run_generate(seed, count, true),
        ["stored", name] => stored_list(name),
        ["unpack"] => unpack(),
        ["pack"] => pack(),
        ["desk", program] => run_desk(program),
        ["bench"] => bench(),
        ["left-out"] => io::stdout().write_all(LEFT_OUT.as_bytes()),
        _ => Err(io::Error::other(USAGE)),
    };
    match result {
        Ok(()) => ExitCode::SUCCESS,
        Err(error) => {
            eprintln!("oracle: {error}");
            ExitCode::FAILURE
        }
    }
}
