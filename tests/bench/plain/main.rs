//! A program that gives the answers of polcert and proves nothing. It is for benchmarks alone: docs/BENCHMARKS.md says how long both
//! take on the same inputs, and nothing rests on it. `tests/bench/same` compares its answers with those of polcert.
//!
//!     rustc -O --edition 2021 tests/bench/plain/main.rs -o PLAIN
//!     PLAIN [model FILE]
//!     PLAIN check FILE PG ALPHA
//!     PLAIN lower FILE PG ALPHA
//!
//! What it accepts is what docs/FORMAT.md describes. What it refuses it refuses by one line, with the status 2, and it names no kind.

mod check;
mod lines;
mod model;
mod policy;
mod rewards;
mod rows;
mod text;

use std::fs;
use std::io::{self, Read, Write};
use std::process::ExitCode;

use check::{Check, Verdict};
use model::Model;
use policy::{Graph, Vectors};

/// What stops the program, as it is told.
struct Stop(String);

fn read_file(path: &str) -> Result<Vec<u8>, Stop> {
    fs::read(path).map_err(|error| Stop(format!("{path}: {error}")))
}

fn read_input() -> Result<Vec<u8>, Stop> {
    let mut text = Vec::new();
    io::stdin()
        .read_to_end(&mut text)
        .map_err(|error| Stop(error.to_string()))?;
    Ok(text)
}

fn write_out(text: &[u8]) -> Result<(), Stop> {
    io::stdout()
        .write_all(text)
        .map_err(|error| Stop(error.to_string()))
}

/// Says which text was refused, and where.
fn of<T>(kind: &str, read: text::Result<T>) -> Result<T, Stop> {
    read.map_err(|refused| Stop(format!("{kind}: {} at byte {}", refused.why, refused.at)))
}

fn summary(text: &[u8]) -> Result<ExitCode, Stop> {
    let model = of("model", Model::read(text))?;
    write_out(lines::summary(&model).as_bytes())?;
    Ok(ExitCode::SUCCESS)
}

fn answer(check: &Check<'_>, is_lower: bool) -> Result<ExitCode, Stop> {
    if !is_lower {
        let verdict = check.verdict();
        write_out(lines::verdict(check, &verdict).as_bytes())?;
        return Ok(match verdict {
            Verdict::Yes => ExitCode::SUCCESS,
            Verdict::Short { .. } | Verdict::NoSuccessor { .. } => ExitCode::from(1),
        });
    }
    match check.least_constant() {
        Ok(by) => {
            write_out(&lines::lowered(check, by))?;
            eprintln!("lowered by {}", lines::decimal(by));
            Ok(ExitCode::SUCCESS)
        }
        Err(why) => {
            eprintln!("lower: {why}");
            Ok(ExitCode::from(1))
        }
    }
}

fn certify(paths: &[String], is_lower: bool) -> Result<ExitCode, Stop> {
    let [model, graph, vectors] = paths else {
        return Err(Stop("a file's name is missing".to_string()));
    };
    let text = read_file(model)?;
    let model = of("model", Model::read(&text))?;
    let graph = of("graph", Graph::read(&read_file(graph)?, &model))?;
    let vectors = of(
        "vectors",
        Vectors::read(&read_file(vectors)?, &model, &graph),
    )?;
    answer(&Check::new(&model, &graph, &vectors), is_lower)
}

fn run(words: &[String]) -> Result<ExitCode, Stop> {
    match words.split_first() {
        None => summary(&read_input()?),
        Some((word, paths)) => match (word.as_str(), paths) {
            ("model", [path]) => summary(&read_file(path)?),
            ("check", _) => certify(paths, false),
            ("lower", _) => certify(paths, true),
            _ => Err(Stop(
                "model FILE, check FILE PG ALPHA or lower FILE PG ALPHA".to_string(),
            )),
        },
    }
}

fn main() -> ExitCode {
    let words: Vec<String> = std::env::args_os()
        .skip(1)
        .map(|word| word.to_string_lossy().into_owned())
        .collect();
    run(&words).unwrap_or_else(|Stop(why)| {
        eprintln!("{why}");
        ExitCode::from(2)
    })
}
