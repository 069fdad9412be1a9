//! Merges three files: `cargo run --example merge -- base.trk ours.trk theirs.trk`.
use pelosumba::{fused, merge, winner, List};
use std::error::Error;
use std::process::ExitCode;

fn read(file: &str) -> Result<List, Box<dyn Error>> {
    let bytes = std::fs::read(file).map_err(|error| format!("{file}: {error}"))?;
    Ok(List::read(&bytes).map_err(|refusal| format!("{file}: {refusal}"))?)
}

fn run(files: &[String]) -> Result<(), Box<dyn Error>> {
    let [base, ours, theirs] = files else {
        return Err("three files are wanted: base, ours and theirs".into());
    };
    let (base, ours, theirs) = (read(base)?, read(ours)?, read(theirs)?);
    let (floor, gate) = (1.0, 16.0);
    let merged = merge(&base, &ours, &theirs, floor, gate)?;
    let shown = |index: Option<usize>| index.map_or("-".to_string(), |i| i.to_string());
    for row in &merged.rows {
        print!("{} {} {} {:?}", shown(row.base), shown(row.ours), shown(row.theirs), row.verdict);
        if let Some(bytes) = winner(&ours, &theirs, row) {
            print!(", {} bytes", bytes.len());
        }
        if let Some(track) = fused(&base, &ours, &theirs, floor, row) {
            print!(", at {:?}", track.state);
        }
        println!();
    }
    println!("{} of three tracks, {} of two, {} of one", merged.full, merged.half, merged.single);
    Ok(())
}

fn main() -> ExitCode {
    let files: Vec<String> = std::env::args().skip(1).collect();
    match run(&files) {
        Ok(()) => ExitCode::SUCCESS,
        Err(error) => {
            eprintln!("{error}");
            ExitCode::FAILURE
        }
    }
}
