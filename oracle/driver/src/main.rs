//! The Rust side of the comparison: answers scripts of the replay language by running the upstream
//! code, writes the scripts and some images, compares two files of answers, counts the refusals in
//! answers, and lists the images that were opened.

mod answer;
mod compare;
mod image;
mod language;
mod live;
mod notes;
mod operations;
mod random;
mod refusals;
mod run;
mod scratch;
mod scripts;
mod state;
mod struck;
mod tally;

use std::io::Read;
use std::path::Path;
use std::process::ExitCode;
use std::{env, fs, io};

use notes::Notes;

const USAGE: &str = "answer [NOTES] | raw | coverage NOTES.. | sum NOTES.. | scripts FAMILY SEED FOLDER | compare PORT RUST | \
                     struck PLAIN MENDED NOTES | refusals | images SCRIPT ANSWERS | samples FOLDER";

fn main() -> ExitCode {
    let arguments: Vec<String> = env::args().skip(1).collect();
    let words: Vec<&str> = arguments.iter().map(String::as_str).collect();

    let done = match words[..] {
        ["answer"] => answer::answer(io::stdin(), io::stdout()).map(|_| true),
        ["answer", notes] => answer_with_notes(Path::new(notes)),
        ["raw"] => answer::answer_raw(io::stdin(), io::stdout()).map(|()| true),
        ["coverage", ref notes @ ..] => tell_notes(notes, Notes::told),
        ["sum", ref notes @ ..] => tell_notes(notes, Notes::summed),
        ["scripts", family, seed, folder] => write_scripts(family, seed, Path::new(folder)),
        ["compare", port, rust] => compare_files(Path::new(port), Path::new(rust)),
        ["struck", plain, mended, notes] => hold_to_mended([plain, mended, notes].map(Path::new)),
        ["refusals"] => count_refusals(io::stdin()),
        ["images", script, answers] => list_images(Path::new(script), Path::new(answers)),
        ["samples", folder] => write_samples(Path::new(folder)),
        _ => Err(io::Error::new(io::ErrorKind::InvalidInput, USAGE)),
    };

    match done {
        Ok(true) => ExitCode::SUCCESS,
        Ok(false) => ExitCode::from(1),
        Err(error) => {
            eprintln!("oracle: {error}");
            ExitCode::from(2)
        }
    }
}

fn write_scripts(family: &str, seed: &str, folder: &Path) -> io::Result<bool> {
    let unknown = |what: &str| io::Error::new(io::ErrorKind::InvalidInput, what);
    let seed = language::number(seed.as_bytes()).ok_or_else(|| unknown("SEED is no number"))?;
    let scripts = scripts::family(family, seed).ok_or_else(|| unknown("no such FAMILY"))?;

    fs::create_dir_all(folder)?;
    for (index, script) in scripts.iter().enumerate() {
        fs::write(folder.join(format!("{:04}.script", index + 1)), script)?;
    }
    Ok(true)
}

/// Leaves what the lines came upon in a file.
fn answer_with_notes(notes: &Path) -> io::Result<bool> {
    let noted = answer::answer(io::stdin(), io::stdout())?;
    fs::write(notes, noted.to_string())?;
    Ok(true)
}

/// Says what the lines of several scripts came upon, by the notes that were left.
fn tell_notes(notes: &[&str], tell: impl Fn(&Notes) -> String) -> io::Result<bool> {
    let paths: Vec<&Path> = notes.iter().map(Path::new).collect();
    println!("{}", tell(&read_notes(&paths)?));
    Ok(true)
}

fn read_notes(paths: &[&Path]) -> io::Result<Notes> {
    let mut sum = Notes::default();
    for path in paths {
        let unknown = || io::Error::new(io::ErrorKind::InvalidData, "these are no notes");
        sum.read(&fs::read(path)?).ok_or_else(unknown)?;
    }
    Ok(sum)
}

/// Says how many lines were equal, or where the first difference is.
fn compare_files(port: &Path, rust: &Path) -> io::Result<bool> {
    match compare::compare(&fs::read(port)?, &fs::read(rust)?) {
        Ok(equal) => println!("lines={} skipped={}", equal.lines, equal.skipped),
        Err(difference) => {
            println!("{difference}");
            return Ok(false);
        }
    }
    Ok(true)
}

/// Says at how many lines the plain build's answers are as the known fault leaves them.
fn hold_to_mended([plain, mended, notes]: [&Path; 3]) -> io::Result<bool> {
    let noted = read_notes(&[notes])?;
    match struck::struck(&fs::read(plain)?, &fs::read(mended)?, noted.strikes()) {
        Ok(lines) => println!("struck={lines}"),
        Err(fault) => {
            println!("{fault}");
            return Ok(false);
        }
    }
    Ok(true)
}

/// Says how often each refusal stands in the answers.
fn count_refusals(mut answers: impl Read) -> io::Result<bool> {
    let mut text = Vec::new();
    answers.read_to_end(&mut text)?;
    println!("{}", tally::tally(&text));
    Ok(true)
}

/// Says the length and the CRC-32 of each image that the script had opened, a line each.
fn list_images(script: &Path, answers: &Path) -> io::Result<bool> {
    for image in tally::opened_images(&fs::read(script)?, &fs::read(answers)?) {
        println!("{image}");
    }
    Ok(true)
}

fn write_samples(folder: &Path) -> io::Result<bool> {
    fs::create_dir_all(folder)?;
    for (name, image) in scripts::sample_images() {
        fs::write(folder.join(format!("{name}.qf")), image)?;
    }
    Ok(true)
}
