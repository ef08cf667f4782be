//! Finds the Rust's sources and writes the module tree that their own `use crate::..` lines expect.
use std::env;
use std::fs;
use std::path::{Path, PathBuf};

fn main() {
    let project = PathBuf::from(env::var("CARGO_MANIFEST_DIR").unwrap());
    let rust = match env::var("SCARFPYLON_RUST") {
        Ok(path) if !path.is_empty() => PathBuf::from(path),
        _ => project.join("../../shared/docs/src/src"),
    };
    let rust = rust.canonicalize().unwrap_or_else(|error| {
        panic!(
            "the Rust's sources are not at hand at {}: {error}; SCARFPYLON_RUST names the folder that has ltl/cs.rs",
            rust.display()
        )
    });
    let stand_ins = project.join("src/stand_ins");

    // tree.rs up to its parser, which needs pest; the lines before it are compiled as they stand. formula/mod.rs, whole,
    // names it as its neighbour.
    let out_dir = PathBuf::from(env::var("OUT_DIR").unwrap());
    let formula = out_dir.join("formula");
    fs::create_dir_all(&formula).unwrap();
    let whole = read(&rust.join("formula/tree.rs"));
    let parser = whole.find("\nuse pest::").expect("tree.rs has no parser to cut");
    fs::write(formula.join("tree.rs"), &whole[..parser + 1]).unwrap();
    fs::write(formula.join("mod.rs"), read(&rust.join("formula/mod.rs"))).unwrap();

    // One row a module: the folder of the tree, the module, where its file is.
    let modules: [(&str, &str, PathBuf); 12] = [
        ("algos", "aux", rust.join("algos/enumeration/aux.rs")),
        ("bool", "cv", stand_ins.join("cv.rs")),
        ("ltl", "cache", rust.join("ltl/cache.rs")),
        ("ltl", "charac", rust.join("ltl/charac.rs")),
        ("ltl", "cm", rust.join("ltl/cm.rs")),
        ("ltl", "cs", rust.join("ltl/cs.rs")),
        ("ltl", "hash", stand_ins.join("hash.rs")),
        ("ltl", "leaves", stand_ins.join("leaves.rs")),
        ("ltl", "trace", stand_ins.join("trace.rs")),
        ("ops", "binary", rust.join("ops/binary.rs")),
        ("ops", "traits", rust.join("ops/traits.rs")),
        ("ops", "unary", rust.join("ops/unary.rs")),
    ];

    let mut tree = String::new();
    for folder in ["algos", "bool", "ltl", "ops"] {
        // The Rust has more than the comparison calls.
        tree += &format!("#[allow(dead_code)]\npub(crate) mod {folder} {{\n");
        for (_, name, file) in modules.iter().filter(|row| row.0 == folder) {
            tree += &module(name, file);
        }
        if folder == "ltl" {
            tree += "    pub(crate) use leaves::{AtomicProposition, Constant};\n";
            tree += "    pub(crate) type LtlFormula = crate::formula::Formula<charac::LtlCharac>;\n";
        }
        tree += "}\n";
    }
    for (name, file) in [
        ("cache", rust.join("cache/mod.rs")),
        ("formula", formula.join("mod.rs")),
        ("traits", stand_ins.join("traits.rs")),
    ] {
        tree += "#[allow(dead_code)]\n";
        tree += &module(name, &file);
    }
    println!("cargo:rerun-if-changed={}", rust.join("cache/enum_cache.rs").display());

    fs::write(out_dir.join("the_rust.rs"), tree).unwrap();
    println!("cargo:rerun-if-env-changed=SCARFPYLON_RUST");
}

fn read(file: &Path) -> String {
    println!("cargo:rerun-if-changed={}", file.display());
    fs::read_to_string(file).unwrap_or_else(|error| panic!("{}: {error}", file.display()))
}

fn module(name: &str, file: &Path) -> String {
    assert!(file.is_file(), "{} is missing", file.display());
    // What this script writes itself is no reason to run it again.
    if !file.starts_with(env::var("OUT_DIR").unwrap()) {
        println!("cargo:rerun-if-changed={}", file.display());
    }
    format!("    #[path = {file:?}]\n    pub(crate) mod {name};\n")
}
