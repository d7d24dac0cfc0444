//! A table of an older season: reads the table that one file holds, and writes it in form 3 to another, or in form 1 or 2 if that is
//! named. Run with `cargo run --example season -- OLD NEW [FORM]`; keep OLD until NEW is safe.
//!
//! Nothing carries a table to form 4 or 5: found a new one, and write the file into it.

use dyngrid::{Form3Table, OlderForm};
use std::error::Error;
use std::process::ExitCode;
use std::{env, fs};

fn main() -> ExitCode {
    let arguments: Vec<String> = env::args().skip(1).collect();
    let words: Vec<&str> = arguments.iter().map(String::as_str).collect();
    let (old, new, form) = match words[..] {
        [old, new] | [old, new, "3"] => (old, new, OlderForm::Three),
        [old, new, "2"] => (old, new, OlderForm::Two),
        [old, new, "1"] => (old, new, OlderForm::One),
        _ => {
            eprintln!("name two files, and a form from 1 to 3: season OLD NEW [FORM]");
            return ExitCode::FAILURE;
        }
    };
    match carry(old, new, form) {
        Ok(()) => ExitCode::SUCCESS,
        Err(error) => {
            eprintln!("{old} is not carried over: {error}");
            ExitCode::FAILURE
        }
    }
}

fn carry(old: &str, new: &str, form: OlderForm) -> Result<(), Box<dyn Error>> {
    let kept = fs::read(old)?;
    let carried = match form {
        OlderForm::Three => Form3Table::carry_up(&kept)?.into_bytes(),
        _ => Form3Table::from_bytes(kept)?.carry_down(form)?,
    };
    fs::write(new, &carried)?;
    println!("{} bytes of form {}", carried.len(), form.number());
    Ok(())
}
