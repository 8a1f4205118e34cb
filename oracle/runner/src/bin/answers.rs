//! `answers IN OUT`: reads an `ops` list and writes the same records with the Rust text's own answers.
use std::{env, fs, process::ExitCode};

use runner::{
    case::{get_record, put_record},
    ops,
};

fn run(from: &str, to: &str) -> Result<usize, String> {
    let bytes = fs::read(from).map_err(|e| format!("cannot read {from}: {e}"))?;
    let mut rest = &bytes[..];
    let mut out = Vec::with_capacity(bytes.len());
    let mut count = 0;
    while !rest.is_empty() {
        let place = bytes.len() - rest.len();
        let (case, _) = get_record(&mut rest).ok_or(format!("{from}: no record at byte {place}"))?;
        put_record(&mut out, &case, &ops::answer(&case));
        count += 1;
    }
    fs::write(to, out).map_err(|e| format!("cannot write {to}: {e}"))?;
    Ok(count)
}

fn main() -> ExitCode {
    std::panic::set_hook(Box::new(|_| ()));
    let words: Vec<String> = env::args().collect();
    if words.len() != 3 {
        eprintln!("answers IN OUT");
        return ExitCode::from(2);
    }
    match run(&words[1], &words[2]) {
        Ok(count) => {
            println!("{count} records answered");
            ExitCode::SUCCESS
        }
        Err(words) => {
            eprintln!("answers: {words}");
            ExitCode::FAILURE
        }
    }
}
