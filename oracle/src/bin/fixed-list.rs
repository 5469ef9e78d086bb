//! `fixed-list STDIN STDOUT [SCRIPT ..]`: writes the fixed list, a script and its answers, to the first two files, and
//! the answers of each SCRIPT beside it, under the ending `answers`.

use std::path::Path;
use std::process::ExitCode;

/// The fixed list's own seed: the list is the same wherever it is made.
const SEED: u64 = 1_997;

fn main() -> ExitCode {
    let words: Vec<String> = std::env::args().skip(1).collect();
    let [script, answers, others @ ..] = &words[..] else {
        eprintln!("usage: fixed-list STDIN STDOUT [SCRIPT ..]");
        return ExitCode::from(2);
    };
    match list(script, answers).and_then(|()| others.iter().try_for_each(|other| beside(Path::new(other)))) {
        Ok(()) => ExitCode::SUCCESS,
        Err(why) => {
            eprintln!("fixed-list: {why}");
            ExitCode::FAILURE
        }
    }
}

fn list(script: &str, answers: &str) -> Result<(), String> {
    let fixed = oracle::fixed::make(SEED)?;
    write(Path::new(script), &fixed.script)?;
    write(Path::new(answers), &fixed.answers)?;
    for (label, count) in fixed.counts.rows() {
        println!("{count:>8}  {label}");
    }
    println!("{:>8}  refusals by hand", fixed.counts.refused.iter().sum::<u64>());
    println!("{} and {} bytes", fixed.script.len(), fixed.answers.len());
    Ok(())
}

fn beside(script: &Path) -> Result<(), String> {
    let named = |why: String| format!("{}: {why}", script.display());
    let text = std::fs::read_to_string(script).map_err(|e| named(e.to_string()))?;
    let answers = oracle::fixed::answers(&text).map_err(named)?;
    write(&script.with_extension("answers"), &answers)?;
    println!("{}: {} bytes of answers", script.display(), answers.len());
    Ok(())
}

fn write(path: &Path, text: &[u8]) -> Result<(), String> {
    std::fs::write(path, text).map_err(|e| format!("{}: {e}", path.display()))
}
