//! `lint CRATES ENTRY..`: no function, constant or type that an entry (a crate, or a module as `records::decimal`) reaches holds a `/` or a
//! `%`. What is reached is read off the sources: whatever an item names is looked at in its turn.

mod items;
mod reach;
#[cfg(test)]
mod tests;
mod tokens;

use std::path::{Path, PathBuf};
use std::process::ExitCode;
use std::{env, fs};

use reach::Modules;

fn listed(folder: &Path) -> Result<Vec<PathBuf>, String> {
    let read = fs::read_dir(folder).map_err(|e| format!("{}: {e}", folder.display()))?;
    let mut paths: Vec<PathBuf> = read.flatten().map(|entry| entry.path()).collect();
    paths.sort();
    Ok(paths)
}

fn stem(path: &Path) -> String {
    let stem = path.file_stem().unwrap_or_default();
    stem.to_string_lossy().into_owned()
}

/// The modules of a folder of sources, of which the one named `lib`, `main` or `mod` is the folder's own.
fn add(modules: &mut Modules, folder: &Path, own: &str) -> Result<(), String> {
    for file in listed(folder)? {
        let name = match stem(&file).as_str() {
            "lib" | "main" | "mod" => own.to_string(),
            module => format!("{own}::{module}"),
        };
        if file.is_dir() {
            add(modules, &file, &name)?;
            continue;
        }
        let shown = file.display().to_string();
        let source = fs::read_to_string(&file).map_err(|e| format!("{shown}: {e}"))?;
        let module = items::module(&shown, &source)?;
        if modules.insert(name, module).is_some() {
            return Err(format!("{shown}: a second module of its name"));
        }
    }
    Ok(())
}

/// Every module of the crates in a folder.
fn modules(crates: &Path) -> Result<Modules, String> {
    let mut modules = Modules::new();
    for one in listed(crates)? {
        let sources = one.join("src");
        if sources.is_dir() {
            add(&mut modules, &sources, &stem(&one))?;
        }
    }
    Ok(modules)
}

/// A line for an entry, or every division that it reaches.
fn check(modules: &Modules, entry: &str) -> Result<String, String> {
    let reached = reach::reached(modules, entry)?;
    let found = reach::divisions(modules, &reached);
    if found.is_empty() {
        let count = reached.len();
        return Ok(format!(
            "{entry} reaches {count} functions, constants and types, none divides"
        ));
    }
    Err(format!("{entry} reaches\n{}", found.join("\n")))
}

fn run(args: &[String]) -> Result<String, String> {
    let [crates, entries @ ..] = args else {
        return Err("usage: lint CRATES ENTRY..".into());
    };
    let modules = modules(Path::new(crates))?;
    let lines: Result<Vec<String>, String> = entries.iter().map(|e| check(&modules, e)).collect();
    Ok(lines?.join("\n"))
}

fn main() -> ExitCode {
    let args: Vec<String> = env::args().skip(1).collect();
    match run(&args) {
        Ok(report) => {
            println!("{report}");
            ExitCode::SUCCESS
        }
        Err(fault) => {
            eprintln!("lint: {fault}");
            ExitCode::FAILURE
        }
    }
}
