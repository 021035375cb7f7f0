//! The sample evening's sheet as the laboratory sees it, Clara and Dino, line by line beside the mill's.
//!
//! `laboratory [FOLDER]`, where the folder has `tables.bin` and `rules.txt`. samples/closing/README.md says why the lines
//! differ.

use std::error::Error;
use std::path::Path;
use std::{env, fs};

use rcl2000::{sheet, Reader, User};

/// Clara and Dino.
const LABORATORY: [User; 2] = [User::numbered(2), User::numbered(3)];

/// How many users the mill's tables have, who left among them.
const USERS: usize = 7;

fn main() -> Result<(), Box<dyn Error>> {
    let here = Path::new(env!("CARGO_MANIFEST_DIR"));
    let folder = match env::args_os().nth(1) {
        Some(folder) => folder.into(),
        None => here.join("../../samples/closing"),
    };
    let tables = fs::read(folder.join("tables.bin"))?;
    let rules = fs::read(folder.join("rules.txt"))?;
    let laboratory = sheet(&tables, Reader::of(LABORATORY), &rules)?;
    let mill = sheet(&tables, Reader::everyone(USERS), &rules)?;
    let width = laboratory.iter().map(String::len).max().unwrap_or(0);
    for (own, all) in laboratory.iter().zip(&mill) {
        println!("laboratory: {own:<width$}    mill: {all}");
    }
    Ok(())
}
