//! How long calls take.

use std::time::Instant;

use crate::library::{self, FlattenAnswer};
use crate::records::{self, Style, PLAIN};

/// Nanoseconds per byte of a call: the least of many short rounds, so that other work on the machine shows little.
fn time(bytes: usize, mut call: impl FnMut()) -> f64 {
    let calls = (200_000 / bytes).max(1);
    let rounds = (0..200).map(|_| {
        let start = Instant::now();
        for _ in 0..calls {
            call();
        }
        start.elapsed().as_nanos() as f64 / (calls * bytes) as f64
    });
    rounds.fold(f64::INFINITY, f64::min)
}

fn of_rules(signature: &[u8]) -> String {
    let mut report = String::new();
    for structures in [1, 8, 31] {
        let rule = records::rule(structures);
        let read = time(rule.len(), || {
            assert_eq!(library::check_rule(signature, &rule), 0, "sound");
        });
        report += &format!("rule of {} bytes: {read:.2} ns per byte\n", rule.len());
    }
    report
}

fn of_groups(signature: &[u8]) -> Result<String, String> {
    let mut report = String::new();
    for size in [1024, 8192, 61_440] {
        let group = records::group(size);
        let read = time(group.len(), || {
            assert_eq!(library::check_group(signature, &group), 0, "sound");
        });
        let whole = time(group.len(), || {
            assert_eq!(library::scope(signature, &group, 0).count, 2, "a model's");
        });
        let published = oracle::bench::infer_scope(signature, &group, 0).ok_or("no rule")?;
        let alone = time(group.len(), published);
        report += &format!(
            "group of {} bytes: {read:.2} ns per byte, its scope {whole:.2}; the published infer_scope alone {alone:.2}\n",
            group.len()
        );
    }
    Ok(report)
}

/// Our whole call beside the published function alone.
fn of_flatten(signature: &[u8], title: &str, rule: &[u8]) -> Result<String, String> {
    let mut out = vec![0; 65_535];
    let size = match library::flatten(signature, rule, &mut out) {
        FlattenAnswer {
            refused: 0,
            written,
        } => written,
        said => return Err(format!("{title}: {said:?}")),
    };
    let bytes = rule.len().max(size);
    let per_case = bytes as f64;
    let whole = per_case
        * time(bytes, || {
            let said = library::flatten(signature, rule, &mut out);
            assert_eq!(said.written, size, "the group");
        });
    let read = per_case
        * time(bytes, || {
            assert_eq!(library::check_rule(signature, rule), 0, "sound");
        });
    let alone = per_case * time(bytes, oracle::bench::flatten_rule(signature, rule));
    Ok(format!(
        "{title}: rule of {} bytes, group of {size}: {whole:.0} ns, {:.2} per byte of the group, of which reading {read:.0}; the published flatten_rule alone {alone:.0}, {:.1} times ours\n",
        rule.len(),
        whole / size as f64,
        alone / whole,
    ))
}

/// Every figure, a line each.
pub fn report() -> Result<String, String> {
    let signature = records::signature();
    let mut report = of_rules(&signature) + &of_groups(&signature)?;
    let named = Style {
        named: true,
        ..PLAIN
    };
    let sparse = Style { stride: 7, ..PLAIN };
    for (title, rule) in [
        ("2 structures, 4 elements", records::grown(2, 4, PLAIN)),
        ("8 structures, 12 elements", records::grown(8, 12, PLAIN)),
        ("32 structures, 33 elements", records::grown(32, 33, PLAIN)),
        ("12 elements sent to one", records::merged(12, 1)),
        ("38 elements sent to one", records::merged(38, 1)),
        ("64 elements sent to one thrice", records::merged(64, 3)),
        (
            "2 structures, 4 elements with names",
            records::grown(2, 4, named),
        ),
        (
            "2 structures, 4 elements with sparse numbers",
            records::grown(2, 4, sparse),
        ),
        (
            "8 structures, 12 elements with names",
            records::grown(8, 12, named),
        ),
        ("2 structures, from 4 elements to 3", records::shrunk(2, 4)),
        (
            "8 structures, from 12 elements to 5",
            records::shrunk(8, 12),
        ),
        (
            "32 structures, from 64 elements to 33",
            records::shrunk(32, 64),
        ),
    ] {
        report += &of_flatten(&signature, title, &rule)?;
    }
    Ok(report)
}
