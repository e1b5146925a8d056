//! The calibration set in the folder that is the second argument:
//!   write  chooses it anew, from seeds, and writes records, sessions, their replies by the engine, the
//!          list of what each reaches, and the tables of the page
//!   check  holds the engine and the independent implementation to the replies that stand there, and the
//!          list and the tables to what the records and sessions reach
//! `check` takes nothing from the generators: a set that was published stays as it is when they change.
//! The exit status is 0 only if nothing differs.

#[path = "../comparisons/engine.rs"]
mod engine;

use independent::calibration::{Case, Sort, RECORDS, SESSIONS};
use independent::generators::looks::Look;
use independent::model::replay::lines;
use std::fs;
use std::io;
use std::path::{Path, PathBuf};
use std::process::ExitCode;

/// Below it stand the tables of the page; what stands above is written by hand.
const HEAD: &str = "## What is reached\n";

fn main() -> ExitCode {
    let arguments: Vec<String> = std::env::args().skip(1).collect();
    let done = match &arguments.iter().map(String::as_str).collect::<Vec<_>>()[..] {
        ["write", folder] => write(Path::new(folder)),
        ["check", folder] => check(Path::new(folder)),
        _ => {
            eprintln!("usage: calibration write|check FOLDER");
            return ExitCode::FAILURE;
        }
    };
    let faults = done.unwrap_or_else(|error| vec![error.to_string()]);
    faults.iter().for_each(|fault| println!("{fault}"));
    if faults.is_empty() {
        ExitCode::SUCCESS
    } else {
        ExitCode::FAILURE
    }
}

/// The replies to a record or to a session.
type Replay = fn(&[u8]) -> Vec<u8>;

/// The sorts, each with the engine's replay of it.
const SORTS: [(Sort, Replay); 2] = [
    (RECORDS, |record| {
        replies(record, |buffer| engine::replay(record, buffer))
    }),
    (SESSIONS, |session| {
        replies(session, |buffer| {
            engine::look_through(session, [0, 0], &Look::Replies, &mut [], buffer)
        })
    }),
];

/// The longest reply: that of a settling with 32 awards.
const LONGEST_REPLY: usize = 463;

/// What a call writes into a buffer that fits all replies.
fn replies(input: &[u8], call: impl FnOnce(&mut [u8]) -> u64) -> Vec<u8> {
    let mut buffer = vec![0; LONGEST_REPLY * lines(input).len()];
    let written = call(&mut buffer);
    let written = usize::try_from(written).ok();
    let replies = written.and_then(|written| buffer.get(..written));
    replies.unwrap_or(b"refused").to_vec()
}

fn write(folder: &Path) -> io::Result<Vec<String>> {
    let mut tables = String::new();
    for (sort, engine) in &SORTS {
        for part in [sort.folder, sort.replies] {
            let part = folder.join(part);
            fs::create_dir_all(&part)?;
            for file in files(&part)? {
                fs::remove_file(file)?;
            }
        }
        let cases = sort.choose();
        for case in &cases {
            let Places { input, replies } = places(folder, sort, &case.name);
            fs::write(input, &case.input)?;
            fs::write(replies, engine(&case.input))?;
        }
        fs::write(folder.join(list_of(sort)), sort.list(&cases))?;
        tables += &sort.tables(&cases);
    }
    let page = folder.join("README.md");
    let old = fs::read_to_string(&page).unwrap_or_default();
    let above = old.split(HEAD).next().unwrap_or_default();
    fs::write(page, format!("{above}{HEAD}{tables}"))?;
    check(folder)
}

fn check(folder: &Path) -> io::Result<Vec<String>> {
    let (mut faults, mut tables) = (Vec::new(), String::new());
    for (sort, engine) in &SORTS {
        let mut cases = Vec::new();
        for file in files(&folder.join(sort.folder))? {
            let name = file.file_stem().unwrap_or_default();
            let (name, input) = (name.to_string_lossy().into_owned(), fs::read(&file)?);
            let replies = fs::read(places(folder, sort, &name).replies)?;
            let independent = (sort.replay)(&input);
            let said = [("engine", engine(&input)), ("independent", independent)];
            for (who, said) in said.iter().filter(|(_, said)| *said != replies) {
                let line = std::iter::zip(lines(&replies), lines(said))
                    .position(|(stands, says)| stands != says);
                let line = line.map_or("at its end".into(), |place| format!("line {}", place + 1));
                faults.push(format!("{name}: the {who}'s replies differ, {line}"));
            }
            let reached = (sort.reached)(&input);
            cases.push(Case {
                name,
                input,
                reached,
            });
        }
        let replies = files(&folder.join(sort.replies))?.len();
        if replies != cases.len() {
            faults.push(format!("{}: {replies} files", sort.replies));
        }
        faults.extend(sort.faults(&cases));
        if fs::read_to_string(folder.join(list_of(sort)))? != sort.list(&cases) {
            faults.push(format!("{}: not what they reach", list_of(sort)));
        }
        tables += &sort.tables(&cases);
        println!(
            "{} {}, {} goals",
            cases.len(),
            sort.folder,
            (sort.goals)().len()
        );
    }
    let page = fs::read_to_string(folder.join("README.md"))?;
    if page.split(HEAD).nth(1) != Some(&tables) {
        faults.push("README.md: the tables are not what is reached".into());
    }
    Ok(faults)
}

/// The files of one of the set.
struct Places {
    input: PathBuf,
    replies: PathBuf,
}

fn places(folder: &Path, sort: &Sort, name: &str) -> Places {
    let input = folder
        .join(sort.folder)
        .join(format!("{name}.{}", sort.ending));
    let replies = folder.join(sort.replies).join(format!("{name}.replies"));
    Places { input, replies }
}

/// The list of what each reaches.
fn list_of(sort: &Sort) -> String {
    format!("{}.csv", sort.folder)
}

/// The files of a folder, by name.
fn files(folder: &Path) -> io::Result<Vec<PathBuf>> {
    let files = fs::read_dir(folder)?.map(|file| Ok(file?.path()));
    let mut files = files.collect::<io::Result<Vec<_>>>()?;
    files.sort();
    Ok(files)
}
