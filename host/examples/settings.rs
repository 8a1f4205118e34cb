//! Puts a sheet of two settings and three constants together, works it out, changes a setting, and says what moved and why.
use booth::{Expr, Refusal, Results, Sheet, Slot, Stage};

fn print(results: &Results) {
    for (number, entry) in (0..).zip(results.sheet().entries()) {
        match results.slot(number) {
            Some(Slot::Value(value)) => println!("#{number} {}: {} = {value}", entry.kind, entry.expr),
            Some(Slot::Refused(refusal)) => println!("#{number} {}: {}: {refusal}", entry.kind, entry.expr),
            _ => println!("#{number} {}: {}: no slot", entry.kind, entry.expr),
        }
    }
}

fn main() -> Result<(), Refusal> {
    let mut builder = Sheet::builder();
    let cell = builder.setting(5u32);
    let scale = builder.setting(0.25f32);
    let mask = builder.entry(Stage::Override, Expr::from(1u32) << cell);
    builder.entry(Stage::Override, mask - 1u32.into());
    builder.entry(Stage::Exec, scale * Expr::from([1.0f32, 2.0, 4.0]));
    let mut results = builder.build()?.fold()?;
    print(&results);
    let moved = results.set(0, 32u32)?;
    println!("entry 0 set to 32u: {moved:?} had to move");
    print(&results);
    Ok(())
}
