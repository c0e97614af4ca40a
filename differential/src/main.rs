//! Runs the original and our engine on the same inputs and compares. README.md says how.

mod bench;
mod bench_styles;
mod bundles;
mod cases;
mod clock;
mod draw_cases;
mod draw_run;
mod draws;
mod entities;
#[cfg(feature = "rattle")]
mod ffi;
#[cfg(feature = "rattle")]
mod ffi_styles;
mod load_cases;
mod load_run;
mod loads;
mod map_cases;
mod map_run;
mod maps;
mod memory;
mod model;
mod mutation;
mod mutation_run;
mod plates;
mod random;
mod run;
mod sample;
mod sample_styles;
mod sheets;
mod style_cases;
mod style_run;
mod style_tally;
mod styles;
mod tally;
mod token_run;
mod tokens;

// The original names these from the crate's root.
#[path = "shims/coords.rs"]
mod coords;
#[path = "shims/tile.rs"]
mod tile;
include!(concat!(env!("OUT_DIR"), "/original.rs"));

use std::path::PathBuf;
use std::process::ExitCode;

#[global_allocator]
static ALLOCATOR: memory::Counting = memory::Counting;

const USAGE: &str = "differential run SEED COUNT [PART] | sample DIRECTORY SEED COUNT | bench | sheets";

const PARTS: [&str; 6] = ["tokens", "loads", "maps", "styles", "draws", "mutation"];

/// One load for so many texts of the tokenizer's run.
const TEXTS_A_LOAD: u64 = 10;
/// And one drawing list.
const TEXTS_A_LIST: u64 = 5;

/// Compares these parts; false if anything is wrong.
fn run(seed: u64, count: u64, parts: &[&str]) -> bool {
    assert!(sheets::check(), "the original refuses a sheet");
    let mut plan = run::Plan::new(seed);
    for part in parts {
        match *part {
            "tokens" => token_run::plan(&mut plan, count),
            "loads" => load_run::plan(&mut plan, count / TEXTS_A_LOAD),
            "maps" => map_run::plan(&mut plan, count),
            "styles" => style_run::plan(&mut plan, count),
            "draws" => draw_run::plan(&mut plan, count / TEXTS_A_LIST),
            _ => mutation_run::plan(&mut plan, count),
        }
    }
    plan.run(parts, run::threads())
}

fn main() -> ExitCode {
    let args: Vec<String> = std::env::args().skip(1).collect();
    let args: Vec<&str> = args.iter().map(String::as_str).collect();
    let number = |text: &str| text.parse::<u64>().unwrap_or_else(|_| panic!("{text} is no number"));
    let good = match args[..] {
        ["run", seed, count] => run(number(seed), number(count), &PARTS),
        ["run", seed, count, part] if PARTS.contains(&part) => run(number(seed), number(count), &[part]),
        ["sample", directory, seed, count] => sample::write(&PathBuf::from(directory), number(seed), number(count)),
        ["bench"] => bench::bench(),
        ["sheets"] => sheets::check(),
        _ => {
            eprintln!("usage: {USAGE}");
            false
        }
    };
    if good {
        ExitCode::SUCCESS
    } else {
        ExitCode::FAILURE
    }
}
