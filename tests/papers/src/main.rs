//! Checks the model on the worked examples of the papers and requests, whose answers were written
//! by hand, and writes each as `.records` and `.listing` for the program, which knows no charges.
//! Arguments: the folder of the examples and the folder to write into.

mod text;

use model::charge::charge;
use model::listing::listing;
use model::service::{record, Lent, Memory};
use std::path::{Path, PathBuf};
use std::process::ExitCode;

fn examples(folder: &Path) -> std::io::Result<Vec<PathBuf>> {
    let entries = std::fs::read_dir(folder)?;
    let paths = entries.map(|entry| entry.map(|entry| entry.path()));
    let mut paths = paths.collect::<std::io::Result<Vec<_>>>()?;
    paths.retain(|path| path.extension().is_some_and(|end| end == "txt"));
    paths.sort();
    Ok(paths)
}

/// The first line in which two listings differ.
fn difference(given: &str, expected: &str) -> String {
    let pairs = given.lines().zip(expected.lines());
    let differing = pairs.into_iter().find(|(a, b)| a != b);
    let (given, expected) = differing.unwrap_or(("fewer or more lines", "as many lines"));
    format!("`{expected}` expected, `{given}` given")
}

/// The memory behind the records of a stream.
fn memory_behind(mut stream: &[u8]) -> Memory {
    let mut memory = Memory::zeros(Lent::EXACT);
    while !stream.is_empty() {
        let (_, used) = record(&mut memory, &Lent::EXACT, stream);
        stream = &stream[used as usize..];
    }
    memory
}

/// Asks for each charge behind the records that stand before it. It must leave the block alone.
fn check_charges(example: &text::Example) -> Result<(), String> {
    for charged in &example.charges {
        let before = memory_behind(&example.stream[..charged.behind]);
        let mut memory = before.clone();
        let said = charge(&mut memory, &Lent::EXACT, &charged.numbers, charged.item);
        let (said, expected, line) = (said.to_string(), &charged.answer, charged.line);
        if said != *expected || memory.block != before.block {
            return Err(format!(
                "line {line}: `{expected}` expected, `{said}` given"
            ));
        }
    }
    Ok(())
}

fn check(path: &Path, out: &Path) -> Result<(), String> {
    let source = std::fs::read_to_string(path).map_err(|error| error.to_string())?;
    let example = text::read(&source)?;
    let given = listing(&example.stream);
    if given != example.listing {
        return Err(difference(&given, &example.listing));
    }
    check_charges(&example)?;
    let file = out.join(path.file_name().unwrap_or_default());
    std::fs::write(file.with_extension("records"), example.stream)
        .and_then(|()| std::fs::write(file.with_extension("listing"), given))
        .map_err(|error| error.to_string())
}

fn main() -> ExitCode {
    let folders: Vec<PathBuf> = std::env::args().skip(1).map(PathBuf::from).collect();
    let [from, out] = &folders[..] else {
        panic!("say the folder of the examples and the folder to write into");
    };
    let paths = examples(from).expect("the examples can be read");
    for path in &paths {
        if let Err(error) = check(path, out) {
            println!("{}: {error}", path.display());
            return ExitCode::FAILURE;
        }
    }
    println!("{} examples", paths.len());
    match paths.is_empty() {
        true => ExitCode::FAILURE,
        false => ExitCode::SUCCESS,
    }
}
