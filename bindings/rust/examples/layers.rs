//! Prints the layers of the practice map at zoom 13 and 14, and their drawing order.
//! Usage: layers SHEET [IMPORTED ..], files; an import names a file without its folder.

#[path = "../tests/practice/mod.rs"]
mod practice;

use jekundatz::{Bundle, Sheet};
use std::error::Error;
use std::path::Path;
use std::process::ExitCode;
use std::{env, fs};

fn main() -> ExitCode {
    match print(env::args().skip(1)) {
        Ok(()) => ExitCode::SUCCESS,
        Err(error) => {
            eprintln!("layers: {error}");
            ExitCode::FAILURE
        }
    }
}

fn print(paths: impl Iterator<Item = String>) -> Result<(), Box<dyn Error>> {
    let mut bundle = Bundle::new();
    for path in paths {
        let name = Path::new(&path).file_name().unwrap_or_default().to_string_lossy();
        bundle = bundle.text(name, fs::read_to_string(&path)?);
    }
    let sheet = Sheet::load_bundle(&bundle)?;
    for zoom in [13, 14] {
        print!("{}", practice::lines(&sheet, zoom)?);
    }
    Ok(())
}
