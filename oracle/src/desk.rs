//! Inputs of the program `desk` and what it prints.
//!
//! A list has a block of lines for each, with a blank line between:
//!
//! ```text
//! case one byte
//! input 00
//! output refused 2
//! ```
//!
//! Inputs are words of hexadecimal as in `text`. An output is the group in
//! hexadecimal, or the words of a refusal, which end in a newline.

use std::fmt::Write as _;
use std::io::{self, ErrorKind, Write as _};
use std::process::{Command, Stdio};

use crate::answer::{flatten, hex};
use crate::case::Case;
use crate::notation::record;
use crate::stored::flatten_cases;
use crate::text::{bytes, part};

const HEAD: &str = "\
# Inputs of the program desk and what it prints: cases of flatten.txt whose
# buffer is no smaller than its own, then inputs of which bytes are missing, and
# long ones.
";

/// `desk`'s buffer.
const ROOM: usize = 65_535;

#[derive(Clone, Debug, PartialEq, Eq)]
pub struct DeskCase {
    pub title: String,
    pub input: Vec<u8>,
    pub output: Vec<u8>,
}

/// A signature's length in two bytes, the signature, the rule.
pub fn input(signature: &[u8], rule: &[u8]) -> Vec<u8> {
    let length = u16::try_from(signature.len()).expect("two bytes hold its length");
    [&length.to_be_bytes(), signature, rule].concat()
}

fn refused(number: u8) -> Vec<u8> {
    format!("refused {number}\n").into_bytes()
}

/// What is printed for an input, by the oracle's answers.
pub fn output(input: &[u8]) -> Vec<u8> {
    let [high, low, rest @ ..] = input else {
        return refused(2);
    };
    let length = usize::from(u16::from_be_bytes([*high, *low]));
    if rest.len() < length {
        return refused(2);
    }
    let (signature, rule) = rest.split_at(length);
    flatten(signature, rule, ROOM).unwrap_or_else(refused)
}

/// Inputs that no case of flatten gives, with the refusals set down.
fn made() -> Vec<(&'static str, Vec<u8>, u8)> {
    let sound = record("T");
    let faulty = record("T 9");
    vec![
        ("no input", Vec::new(), 2),
        ("one byte", vec![0], 2),
        ("a length past the end", [&[0, 4], &sound[..]].concat(), 2),
        (
            "a length past the end, in its high byte",
            [&[1, 0], &sound[..]].concat(),
            2,
        ),
        (
            "missing bytes before the signature's 5",
            [&[0, 6], &faulty[..]].concat(),
            2,
        ),
        (
            "missing bytes before 1",
            [&[255, 255][..], &[0; 40_000]].concat(),
            2,
        ),
        ("no rule", input(&sound, &[]), 2),
        ("no rule, and a faulty signature", input(&faulty, &[]), 5),
        ("a length of 0", vec![0, 0], 2),
        ("a signature of 65,535 bytes", input(&[0; 65_535], &[]), 1),
        ("a rule of 100,000 bytes", input(&sound, &[0; 100_000]), 1),
        (
            "a rule of 100,000 bytes, and a faulty signature",
            input(&faulty, &[0; 100_000]),
            5,
        ),
    ]
}

/// Every stored case.
pub fn cases() -> Vec<DeskCase> {
    let fits = |case: &Case| case.number as usize >= ROOM && case.signature.len() <= ROOM;
    let mut cases: Vec<DeskCase> = flatten_cases()
        .into_iter()
        .filter(|titled| fits(&titled.case))
        .map(|titled| {
            let input = input(&titled.case.signature, &titled.case.record);
            let output = output(&input);
            let title = titled.title;
            DeskCase {
                title,
                input,
                output,
            }
        })
        .collect();
    cases.extend(made().into_iter().map(|(title, input, number)| DeskCase {
        title: title.to_string(),
        input,
        output: refused(number),
    }));
    cases
}

/// An output as a list has it.
pub fn shown(output: &[u8]) -> String {
    match std::str::from_utf8(output) {
        Ok(line) if line.starts_with("refused ") => line.trim_end().to_string(),
        _ => hex(output),
    }
}

/// The input as words: its length, then fields as far as they go.
fn words(input: &[u8]) -> String {
    let [high, low, rest @ ..] = input else {
        return hex(input);
    };
    let length = usize::from(u16::from_be_bytes([*high, *low])).min(rest.len());
    let (signature, rule) = rest.split_at(length);
    let words = [hex(&[*high, *low]), part(signature), part(rule)];
    words.join(" ").trim_end().to_string()
}

/// A list's text.
pub fn text(cases: &[DeskCase]) -> String {
    let mut text = HEAD.to_string();
    for case in cases {
        let block = [
            format!("case {}", case.title),
            format!("input {}", words(&case.input)),
            format!("output {}", shown(&case.output)),
        ];
        text.push('\n');
        for line in block {
            writeln!(text, "{}", line.trim_end()).expect("a String takes every line");
        }
    }
    text
}

/// The cases of a list.
pub fn read(text: &str) -> Result<Vec<DeskCase>, String> {
    let mut cases: Vec<DeskCase> = Vec::new();
    let lines = text.lines().filter(|line| !line.starts_with('#'));
    for line in lines.filter(|line| !line.is_empty()) {
        let (word, value) = line.split_once(' ').unwrap_or((line, ""));
        if word == "case" {
            let title = value.to_string();
            let (input, output) = (Vec::new(), Vec::new());
            cases.push(DeskCase {
                title,
                input,
                output,
            });
            continue;
        }
        let case = cases.last_mut().ok_or("a case begins with its title")?;
        match word {
            "input" => case.input = bytes(value)?,
            "output" if value.starts_with("refused ") => case.output = format!("{value}\n").into(),
            "output" => case.output = bytes(value)?,
            _ => return Err(format!("{word} doesn't belong here")),
        }
    }
    Ok(cases)
}

/// What a program prints for an input, all of which it need not read.
pub fn run(program: &str, input: &[u8]) -> io::Result<Vec<u8>> {
    let mut child = Command::new(program)
        .stdin(Stdio::piped())
        .stdout(Stdio::piped())
        .spawn()
        .map_err(|error| io::Error::new(error.kind(), format!("{program}: {error}")))?;
    let mut stdin = child.stdin.take().expect("standard input is a pipe");
    match stdin.write_all(input) {
        Err(error) if error.kind() != ErrorKind::BrokenPipe => return Err(error),
        _ => drop(stdin),
    }
    let output = child.wait_with_output()?;
    if !output.status.success() {
        return Err(io::Error::other(format!("{program}: {}", output.status)));
    }
    Ok(output.stdout)
}

#[cfg(test)]
mod tests {
    use super::*;

    #[test]
    fn refusals_set_down_are_the_oracle_s() {
        for (title, input, number) in made() {
            assert_eq!(
                shown(&output(&input)),
                format!("refused {number}"),
                "{title}"
            );
        }
    }

    #[test]
    fn a_missing_program_is_named() {
        let error = run("no/such/program", &[]).expect_err("it is not there");
        assert!(
            error.to_string().starts_with("no/such/program: "),
            "{error}"
        );
    }

    #[test]
    fn a_list_reads_back() {
        let cases = cases();
        assert_eq!(read(&text(&cases)), Ok(cases));
    }

    #[test]
    fn every_refusal_of_flatten_is_stored() {
        let cases = cases();
        for number in (1..=8).chain(21..=31) {
            let line = refused(number);
            assert!(cases.iter().any(|case| case.output == line), "{number}");
        }
    }
}
