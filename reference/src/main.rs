//! `reference`: runs scripts, makes vectors, compares with the program `release`, and takes times.

use std::fs;
use std::io::{self, Read, Write};
use std::path::Path;
use std::process::ExitCode;

use reference::compare::{Comparison, Failure};
use reference::generate::Scope;
use reference::phrases::Care;
use reference::vectors::{classes, places, vectors, Vectors};
use reference::{script, speed};

const USAGE: &str = "\
reference run                                 obeys the script on the standard input
reference vectors NUMBER COUNT [FOLDER]       a script of COUNT commands and its output: into the files stdin
                                              and stdout of FOLDER, or both on the standard output
reference same NUMBER COUNT FOLDER            whether FOLDER's stdin and stdout are those that vectors writes
reference cover NUMBER COUNT                  which replies and refusals such a script has
reference compare NUMBER COUNT [PATH] [CARE]  runs PATH (crates/release/out/release) and this program on random scripts;
                                              CARE is exact, words (where none is given) or lines
reference speed                               takes times
The word `arithmetic` at the end leaves out all commands but those on groups, elements and scalars.
";

/// A NUMBER starts the random numbers: the same one gives the same scripts.
struct Arguments {
    number: u64,
    count: usize,
    path: Option<String>,
    care: Care,
    scope: Scope,
}

fn arguments(words: &[String]) -> Option<Arguments> {
    let [number, count, others @ ..] = words else {
        return None;
    };
    let (number, count) = (number.parse().ok()?, count.parse().ok()?);
    let mut arguments = Arguments { number, count, path: None, care: Care::Words, scope: Scope::All };
    for word in others {
        match (Care::named(word), Scope::named(word)) {
            (Some(named), _) => arguments.care = named,
            (_, Some(named)) => arguments.scope = named,
            _ if arguments.path.is_none() => arguments.path = Some(word.clone()),
            _ => return None,
        }
    }
    Some(arguments)
}

fn run() -> io::Result<bool> {
    let mut input = Vec::new();
    io::stdin().read_to_end(&mut input)?;
    io::stdout().write_all(script::run(&input).as_bytes())?;
    Ok(true)
}

fn write_vectors(arguments: &Arguments) -> io::Result<bool> {
    let Vectors { script, output } = vectors(arguments.number, arguments.count, arguments.scope);
    if let Some(folder) = &arguments.path {
        fs::create_dir_all(folder)?;
        fs::write(Path::new(folder).join("stdin"), script)?;
        fs::write(Path::new(folder).join("stdout"), output)?;
        return Ok(true);
    }
    let mut out = io::stdout().lock();
    out.write_all(b"== stdin\n")?;
    out.write_all(&script)?;
    out.write_all(b"== stdout\n")?;
    out.write_all(output.as_bytes())?;
    Ok(true)
}

fn same_vectors(arguments: &Arguments) -> io::Result<bool> {
    let Vectors { script, output } = vectors(arguments.number, arguments.count, arguments.scope);
    let folder = arguments.path.as_deref().unwrap_or(".");
    let script_same = fs::read(Path::new(folder).join("stdin"))? == script;
    let output_same = fs::read(Path::new(folder).join("stdout"))? == output.as_bytes();
    println!("stdin {}", if script_same { "is the same" } else { "differs" });
    println!("stdout {}", if output_same { "is the same" } else { "differs" });
    Ok(script_same && output_same)
}

fn cover(arguments: &Arguments) -> io::Result<bool> {
    let output = vectors(arguments.number, arguments.count, arguments.scope).output;
    for (class, count) in classes(&output) {
        if !class.starts_with("refused") {
            println!("{count:>7} {class}");
        }
    }
    for (number, places) in places(&output) {
        println!("refused {number} at {places:?}");
    }
    Ok(true)
}

fn show(failure: &Failure) -> io::Result<()> {
    println!("a difference in part {}; the smallest script that shows it:", failure.part);
    io::stdout().write_all(&failure.script)?;
    let difference = &failure.difference;
    let side = |line: &Option<String>| line.clone().unwrap_or_else(|| "(nothing)".to_string());
    println!("line {} of the output", difference.line);
    println!("  reference: {}", side(&difference.reference));
    println!("  release:   {}", side(&difference.release));
    Ok(())
}

fn compare(arguments: &Arguments) -> io::Result<bool> {
    let path = arguments.path.as_deref().unwrap_or("crates/release/out/release");
    let comparison = Comparison { path, care: arguments.care, scope: arguments.scope };
    let outcome = comparison.run(arguments.number, arguments.count)?;
    println!("{} commands, {} lines of output without a difference", outcome.commands, outcome.replies);
    match &outcome.failure {
        None => Ok(true),
        Some(failure) => show(failure).map(|()| false),
    }
}

fn obey(words: &[String]) -> Option<io::Result<bool>> {
    let (command, rest) = words.split_first()?;
    match command.as_str() {
        "run" => Some(run()),
        "vectors" => Some(write_vectors(&arguments(rest)?)),
        "same" => Some(same_vectors(&arguments(rest)?)),
        "cover" => Some(cover(&arguments(rest)?)),
        "compare" => Some(compare(&arguments(rest)?)),
        "speed" => {
            speed::run();
            Some(Ok(true))
        }
        _ => None,
    }
}

fn main() -> ExitCode {
    let words: Vec<String> = std::env::args().skip(1).collect();
    match obey(&words) {
        Some(Ok(true)) => ExitCode::SUCCESS,
        Some(Ok(false)) => ExitCode::from(1),
        Some(Err(error)) => {
            eprintln!("reference: {error}");
            ExitCode::from(2)
        }
        None => {
            eprint!("{USAGE}");
            ExitCode::from(2)
        }
    }
}
