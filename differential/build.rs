//! Lays out the original's modules in OUT_DIR. Its files stay where they are: each module is an
//! `include!` of the unchanged file, followed by a probe of ours, which as a descendant module
//! sees the private items.

use std::path::{Path, PathBuf};
use std::{env, fs};

const MAPCSS: [&str; 5] = ["color", "parser", "style_cache", "styler", "token"];
const PROBED: [&str; 4] = ["parser", "reader", "styler", "token"];

fn main() {
    let here = PathBuf::from(env::var("CARGO_MANIFEST_DIR").unwrap());
    let out = PathBuf::from(env::var("OUT_DIR").unwrap());
    let original = env::var("ORIGINAL").map_or(here.join("../../shared/docs/src"), PathBuf::from);
    let original = fs::canonicalize(&original)
        .unwrap_or_else(|e| panic!("the original's directory {}: {e}", original.display()))
        .join("src");
    println!("cargo:rerun-if-env-changed=ORIGINAL");
    println!("cargo:rerun-if-changed=build.rs");

    // mod.rs declares the other modules beside itself, so it is the one file that is copied.
    let mapcss = out.join("mapcss");
    fs::create_dir_all(&mapcss).unwrap();
    let head = original.join("mapcss/mod.rs");
    println!("cargo:rerun-if-changed={}", head.display());
    fs::write(mapcss.join("mod.rs"), fs::read(&head).unwrap()).unwrap();
    for name in MAPCSS {
        wrap(&here, &original.join("mapcss").join(name), &mapcss.join(name), name);
    }

    let geodata = out.join("geodata");
    fs::create_dir_all(&geodata).unwrap();
    fs::write(geodata.join("mod.rs"), "pub mod reader;\n").unwrap();
    wrap(&here, &original.join("geodata/reader"), &geodata.join("reader"), "reader");

    let mut root = String::new();
    for name in ["mapcss", "geodata"] {
        let path = out.join(name).join("mod.rs");
        root += &format!("#[allow(dead_code, mismatched_lifetime_syntaxes)]\n#[path = {path:?}]\npub mod {name};\n");
    }
    fs::write(out.join("original.rs"), root).unwrap();

    if env::var("CARGO_FEATURE_RATTLE").is_ok() {
        let library = here.join("../target/staticlib");
        println!("cargo:rustc-link-search=native={}", library.display());
        for name in ["capi_token", "capi"] {
            println!("cargo:rustc-link-lib=static={name}");
            println!("cargo:rerun-if-changed={}", library.join(format!("lib{name}.a")).display());
        }
    }
}

fn wrap(here: &Path, source: &Path, module: &Path, name: &str) {
    let source = source.with_extension("rs");
    println!("cargo:rerun-if-changed={}", source.display());
    // its warnings are made and not printed
    let mut text = String::new();
    if name == "styler" {
        text += "macro_rules! eprintln { ($($part:tt)*) => { { let _ = format_args!($($part)*); } }; }\n";
    }
    text += &format!("include!({source:?});\n");
    if PROBED.contains(&name) {
        let probe = here.join("src/probes").join(name).with_extension("rs");
        text += &format!("#[path = {probe:?}]\npub mod probe;\n");
    }
    fs::write(module.with_extension("rs"), text).unwrap();
}
