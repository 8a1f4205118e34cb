//! `compare list FILE [EVERY]`: writes the generated cases (every EVERYth of them) with the Rust text's answers as an `ops` list.
//! `compare file FILE`: compares the text with the answers of an `ops` list, over that list's cases.
//! `compare booth [EVERY]`: compares the text with the linked library over the generated cases, every EVERYth of them (feature `booth`).
//! Ends with status 1 if some difference stands under no line, or, over all generated cases, if some line was never needed or no refused
//! shift of a direction was met. A difference in nothing but the left operand of a refused shift is one too, and its line says so.
use std::{env, fs, process::ExitCode};

use runner::{
    case::put_record,
    cases, ops,
    report::Report,
    side::{records, Recorded, Side},
};

const SEED: u64 = 0x5eed_c0de;

fn list(name: &str, every: u64) -> Result<bool, String> {
    let (mut out, mut count, mut written) = (vec![], 0u64, 0u64);
    cases::each(SEED, &mut |case| {
        if count % every == 0 {
            put_record(&mut out, &case, &ops::answer(&case));
            written += 1;
        }
        count += 1;
    });
    fs::write(name, out).map_err(|e| format!("cannot write {name}: {e}"))?;
    println!("{written} of {count} cases written");
    Ok(true)
}

fn file(name: &str) -> Result<bool, String> {
    let all = records(name)?;
    let cases: Vec<_> = all.iter().map(|r| r.0).collect();
    let mut side = Recorded::new(all);
    let mut report = Report::default();
    for case in cases {
        report.add(&case, side.answer(&case)?);
    }
    report.print();
    Ok(report.unexplained == 0)
}

#[cfg(feature = "booth")]
fn booth(every: u64) -> Result<bool, String> {
    let mut side = runner::side::Linked;
    let mut report = Report::default();
    let (mut failed, mut count) = (None, 0u64);
    cases::each(SEED, &mut |case| {
        count += 1;
        if count % every != 0 {
            return;
        }
        match side.answer(&case) {
            Ok(answer) => report.add(&case, answer),
            Err(words) => {
                failed.get_or_insert(format!("{}: {words}", runner::report::case(&case)));
            }
        }
    });
    report.print();
    if every > 1 {
        println!("{} of {count} generated cases compared", report.cases);
        return failed.map_or(Ok(report.cases > 0 && report.unexplained == 0), Err);
    }
    let unseen = report.never_needed();
    if !unseen.is_empty() {
        println!("lines never needed: {}", unseen.join(" "));
    }
    match failed {
        Some(words) => Err(words),
        None => {
            let shifts = report.with_operand.iter().all(|count| *count > 0);
            Ok(report.unexplained == 0 && unseen.is_empty() && shifts && report.covered() == (163_350, 495))
        }
    }
}

#[cfg(not(feature = "booth"))]
fn booth(_: u64) -> Result<bool, String> {
    Err("built without the feature booth".into())
}

/// The number of cases from one that is taken to the next.
fn step(word: &str) -> Result<u64, String> {
    word.parse().ok().filter(|&n| n > 0).ok_or_else(|| format!("EVERY is a number from 1 on, not {word}"))
}

fn main() -> ExitCode {
    std::panic::set_hook(Box::new(|_| ()));
    let words: Vec<String> = env::args().skip(1).collect();
    let words: Vec<&str> = words.iter().map(String::as_str).collect();
    let done = match words[..] {
        ["list", name] => list(name, 1),
        ["list", name, every] => step(every).and_then(|n| list(name, n)),
        ["file", name] => file(name),
        ["booth"] => booth(1),
        ["booth", every] => step(every).and_then(booth),
        _ => Err("compare list FILE [EVERY] | compare file FILE | compare booth [EVERY]".into()),
    };
    match done {
        Ok(true) => ExitCode::SUCCESS,
        Ok(false) => ExitCode::FAILURE,
        Err(words) => {
            eprintln!("compare: {words}");
            ExitCode::from(2)
        }
    }
}
