//! `judge awake`: is the judge awake? Each change of mutants.txt is made to a copy of the Rust or of the stubs, in a
//! temporary folder; the judge that comes of it must answer a fixed set of traces otherwise than this one.

use std::fs;
use std::path::{Path, PathBuf};
use std::process::{Command, Stdio};

/// How many traces of each kind a changed judge is asked about.
const TRACES: [(&str, &str); 4] = [("bench", "100"), ("damaged", "1200"), ("sweep", "3000"), ("random", "1000")];
const VARIABLE: &str = "DEWBRACKET_RUST_SRC";

type Result<T> = std::result::Result<T, String>;

/// One place changed. `invisible` says why no answer can show it, where none can.
struct Mutant {
    file: String,
    old: String,
    new: String,
    invisible: Option<String>,
}

/// A line is file, old text, new text and perhaps the reason, with tabs between; `#` begins a comment.
fn table(text: &str) -> Result<Vec<Mutant>> {
    text.lines().filter(|line| !line.is_empty() && !line.starts_with('#')).map(mutant).collect()
}

fn mutant(line: &str) -> Result<Mutant> {
    let mut fields = line.split('\t').map(String::from);
    match (fields.next(), fields.next(), fields.next()) {
        (Some(file), Some(old), Some(new)) => Ok(Mutant { file, old, new, invisible: fields.next() }),
        _ => Err(format!("mutants.txt: `{line}` must be FILE, OLD, NEW and perhaps REASON, with tabs between")),
    }
}

/// A copy of the workspace and of the Rust, with the traces.
struct Laboratory {
    root: PathBuf,
    traces: Vec<PathBuf>,
}

/// What a changed judge comes to.
#[derive(PartialEq)]
enum Verdict {
    Noticed,
    Unnoticed,
    Unbuilt,
}

/// Runs the table and says whether every change is noticed or has a reason.
pub fn awake(workspace: &Path, source: &Path) -> Result<bool> {
    let mutants = table(&read(&workspace.join("mutants.txt"))?)?;
    let laboratory = Laboratory::new(workspace, source)?;
    laboratory.build()?;
    let expected = laboratory.answers()?;
    let mut counts = [0; 3];
    for mutant in &mutants {
        let verdict = laboratory.try_mutant(mutant, &expected)?;
        let (place, word) = match (&verdict, &mutant.invisible) {
            (Verdict::Noticed, None) => (0, "noticed"),
            (Verdict::Unnoticed, Some(_)) => (1, "invisible"),
            (Verdict::Noticed, Some(_)) => (2, "NOTICED, THOUGH LISTED AS INVISIBLE"),
            (Verdict::Unnoticed, None) => (2, "UNNOTICED"),
            (Verdict::Unbuilt, _) => (2, "DOES NOT BUILD"),
        };
        counts[place] += 1;
        let reason = mutant.invisible.as_deref().unwrap_or("");
        println!("{word}: {}: `{}` -> `{}` {reason}", mutant.file, mutant.old, mutant.new);
    }
    fs::remove_dir_all(&laboratory.root).map_err(|error| error.to_string())?;
    println!("changes {}: noticed {}, invisible {}, wrong {}", mutants.len(), counts[0], counts[1], counts[2]);
    Ok(counts[2] == 0)
}

fn read(file: &Path) -> Result<String> {
    fs::read_to_string(file).map_err(|error| format!("{}: {error}", file.display()))
}

/// Runs a command to its end; its error output is shown only if it fails.
fn run(command: &mut Command) -> Result<Vec<u8>> {
    let output = command.stdin(Stdio::null()).output().map_err(|error| format!("{command:?}: {error}"))?;
    let told = || format!("{command:?} ended with {}: {}", output.status, String::from_utf8_lossy(&output.stderr));
    output.status.success().then_some(()).ok_or_else(told)?;
    Ok(output.stdout)
}

impl Laboratory {
    fn new(workspace: &Path, source: &Path) -> Result<Self> {
        let root = std::env::temp_dir().join(format!("judge-awake-{}", std::process::id()));
        let copy = |from: PathBuf, to: &Path| run(Command::new("cp").arg("-rL").arg(from).arg(to));
        fs::create_dir_all(root.join("oracle")).map_err(|error| error.to_string())?;
        for part in ["Cargo.toml", "Cargo.lock", "SHA256SUMS", "judge", "subject", "ledger", "stubs"] {
            copy(workspace.join(part), &root.join("oracle"))?;
        }
        copy(source.to_path_buf(), &root.join("rust"))?;
        let mut laboratory = Laboratory { root, traces: Vec::new() };
        laboratory.make_traces()?;
        Ok(laboratory)
    }

    fn make_traces(&mut self) -> Result<()> {
        let judge = std::env::current_exe().map_err(|error| error.to_string())?;
        for (kind, count) in TRACES {
            let folder = self.root.join(kind);
            run(Command::new(&judge).arg("make").arg(&folder).args(["77", count, kind]))?;
            let names = fs::read_dir(&folder).map_err(|error| error.to_string())?;
            self.traces.extend(names.filter_map(|entry| entry.ok().map(|entry| entry.path())));
        }
        self.traces.sort();
        Ok(())
    }

    fn build(&self) -> Result<()> {
        let oracle = self.root.join("oracle");
        let mut cargo = Command::new("cargo");
        cargo.args(["build", "--offline", "--quiet", "--profile", "awake"]).current_dir(&oracle);
        run(cargo.env(VARIABLE, self.root.join("rust")).env("CARGO_TARGET_DIR", self.root.join("target"))).map(drop)
    }

    fn answers(&self) -> Result<Vec<u8>> {
        let judge = self.root.join("target/awake/judge");
        run(Command::new(judge).args(["replay", "-a", "-f"]).args(&self.traces))
    }

    /// Changes the copy, builds, asks, and changes it back.
    fn try_mutant(&self, mutant: &Mutant, expected: &[u8]) -> Result<Verdict> {
        let file = self.root.join(&mutant.file);
        let sums = self.root.join("oracle/SHA256SUMS");
        let (sound, listed) = (read(&file)?, read(&sums)?);
        if sound.matches(&mutant.old).count() != 1 {
            return Err(format!("mutants.txt: `{}` must stand exactly once in {}", mutant.old, mutant.file));
        }
        write(&file, &sound.replace(&mutant.old, &mutant.new))?;
        // The changed copy is meant to differ from its sums.
        write(&sums, "")?;
        let verdict = match self.build() {
            Err(_) => Verdict::Unbuilt,
            // A judge that stops on an inner check has noticed too.
            Ok(()) => match self.answers() {
                Ok(found) if found == expected => Verdict::Unnoticed,
                _ => Verdict::Noticed,
            },
        };
        write(&file, &sound)?;
        write(&sums, &listed)?;
        Ok(verdict)
    }
}

fn write(file: &Path, text: &str) -> Result<()> {
    fs::write(file, text).map_err(|error| format!("{}: {error}", file.display()))
}
