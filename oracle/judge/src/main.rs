//! The unchanged Rust as judge of the port. See ../README.md.

mod answers;
mod awake;
mod chance;
mod compare;
mod configuration;
mod coverage;
mod draft;
mod makers;
mod print;
mod registers;
mod replay;
mod run;
mod store;
mod trace;

use std::fs;
use std::path::{Path, PathBuf};
use std::process::ExitCode;

const USAGE: &str = "use: judge replay [-a] [-f] FILE...
     judge make DIR SEED COUNT sweep|random|damaged|bench
     judge compare [--port PATH] [--traces N] [--ops N] [--seed S]
     judge store DIR N
     judge awake";

/// Whether what was asked for holds, or what went wrong.
type Outcome = Result<bool, String>;

fn main() -> ExitCode {
    let arguments: Vec<String> = std::env::args().skip(1).collect();
    match command(&arguments) {
        Ok(true) => ExitCode::SUCCESS,
        Ok(false) => ExitCode::from(1),
        Err(error) => {
            eprintln!("judge: {error}");
            ExitCode::from(2)
        }
    }
}

fn command(arguments: &[String]) -> Outcome {
    let words: Vec<&str> = arguments.iter().map(String::as_str).collect();
    match words[..] {
        ["replay", ..] => replay::replay(&arguments[1..]).map(|()| true).map_err(|error| error.to_string()),
        ["make", folder, seed, count, kind] => make(Path::new(folder), number(seed)?, number(count)?, kind),
        ["compare", ref options @ ..] => compare(options),
        ["awake"] => awake::awake(&workspace(), Path::new(subject::SOURCE)),
        ["store", folder, count] => stored(Path::new(folder), number(count)?),
        _ => Err(format!("no such command\n{USAGE}")),
    }
}

fn number<T: std::str::FromStr>(word: &str) -> Result<T, String> {
    word.parse().map_err(|_| format!("{word} is not a decimal number of the size that is asked for\n{USAGE}"))
}

fn make(folder: &Path, seed: u64, count: usize, kind: &str) -> Outcome {
    let kind = makers::Kind::named(kind).ok_or_else(|| format!("no kind {kind}\n{USAGE}"))?;
    let place = |error| format!("{}: {error}: give a folder that can be written to", folder.display());
    fs::create_dir_all(folder).map_err(place)?;
    for (number, trace) in makers::make(kind, seed, count).enumerate() {
        fs::write(folder.join(format!("{number:05}.trace")), trace).map_err(place)?;
    }
    Ok(true)
}

fn stored(folder: &Path, count: usize) -> Outcome {
    let place = |error| format!("{}: {error}: give a folder that can be written to", folder.display());
    store::store(folder, count).map(|()| true).map_err(place)
}

/// The workspace's folder, where the judge was built.
fn workspace() -> PathBuf {
    Path::new(env!("CARGO_MANIFEST_DIR")).parent().expect("the package stands in the workspace").into()
}

fn compare(options: &[&str]) -> Outcome {
    let mut plan = compare::Plan {
        port: workspace().join("../crates/replay/out/replay"),
        traces: 50_000,
        operations: 10_000_000,
        seed: 1,
        keep: workspace().join("target/mismatches"),
    };
    for pair in options.chunks(2) {
        match *pair {
            ["--port", path] => plan.port = path.into(),
            ["--traces", count] => plan.traces = number(count)?,
            ["--ops", count] => plan.operations = number(count)?,
            ["--seed", seed] => plan.seed = number(seed)?,
            _ => return Err(format!("compare takes no {}\n{USAGE}", pair.join(" "))),
        }
    }
    compare::compare(&plan).map_err(|error| {
        format!("{}: {error}: build the port's program first, or name it with --port", plan.port.display())
    })
}
