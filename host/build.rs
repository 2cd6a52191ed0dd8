//! Links the proved library, which stands at a fixed place beside this crate, and builds the C yardstick
//! and what calls the foreign HDLC stacks that are asked for.

use std::path::Path;
use std::{env, process::Command};

const WARNINGS: [&str; 4] = ["-Wall", "-Wextra", "-Wpedantic", "-Werror"];
/// A feature, and the package that pkg-config knows its stack by.
const STACKS: [(&str, &str); 2] = [("isdnhdlc", "libosmocore"), ("spandsp", "spandsp")];

fn run(command: &mut Command) {
    let status = command.status().unwrap_or_else(|error| panic!("{command:?}: {error}"));
    assert!(status.success(), "{command:?}: {status}");
}

/// Compiles a file of C to an archive and links it.
fn build(file: &str, flags: &[String]) {
    let built = env::var("OUT_DIR").unwrap();
    let name = Path::new(file).file_stem().unwrap().to_str().unwrap();
    let object = Path::new(&built).join(name).with_extension("o");
    let archive = Path::new(&built).join(format!("libhost_{name}.a"));
    let compiler = env::var("CC").unwrap_or("cc".into());
    run(Command::new(compiler).args(["-std=c99", "-O3", "-c", file, "-o"]).arg(&object).args(WARNINGS).args(flags));
    run(Command::new("ar").arg("rcs").arg(&archive).arg(&object));
    println!("cargo:rustc-link-search=native={built}");
    println!("cargo:rustc-link-lib=static=host_{name}");
    println!("cargo:rerun-if-changed={file}");
}

/// What pkg-config says of a package, word by word.
fn package(name: &str, wanted: &str) -> Vec<String> {
    let said = Command::new("pkg-config").args([wanted, name]).output().expect("pkg-config");
    assert!(said.status.success(), "pkg-config {wanted} {name}");
    String::from_utf8(said.stdout).unwrap().split_whitespace().map(str::to_string).collect()
}

fn main() {
    println!("cargo:rerun-if-changed=build.rs");
    if env::var_os("CARGO_FEATURE_CARD").is_none() {
        return;
    }
    let crate_folder = env::var("CARGO_MANIFEST_DIR").unwrap();
    let library_folder = Path::new(&crate_folder).join("../target/staticlib");
    println!("cargo:rustc-link-search=native={}", library_folder.display());
    println!("cargo:rustc-link-lib=static=pelgrant");
    println!("cargo:rerun-if-changed={}", library_folder.join("libpelgrant.a").display());
    println!("cargo:rerun-if-env-changed=CC");

    build("yardstick.c", &[]);
    println!("cargo:rerun-if-changed=foreign/foreign.h");
    for (stack, name) in STACKS {
        if env::var_os(format!("CARGO_FEATURE_{}", stack.to_uppercase())).is_some() {
            build(&format!("foreign/{stack}.c"), &package(name, "--cflags"));
            for flag in package(name, "--libs") {
                match flag.split_at(2) {
                    ("-l", library) => println!("cargo:rustc-link-lib=dylib={library}"),
                    ("-L", folder) => println!("cargo:rustc-link-search=native={folder}"),
                    _ => println!("cargo:rustc-link-arg={flag}"),
                }
            }
        }
    }
}
