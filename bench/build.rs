//! Says where the original's source stands: the folder in AVREMU_SRC, or ../shared/docs/src, both seen from the project's root. Links what the features ask for:
//! `before` libbefore.a in the folder BENCH_BEFORE, `simavr` simavr.c, built by cc and ar or what CC and AR name, and Debian's libsimavr.

use std::env;
use std::path::Path;
use std::process::Command;

fn must(command: &mut Command) {
    let status = command.status().unwrap_or_else(|error| panic!("{command:?}: {error}"));
    assert!(status.success(), "{command:?}: {status}");
}

fn tool(variable: &str, usual: &str) -> Command {
    println!("cargo:rerun-if-env-changed={variable}");
    Command::new(env::var(variable).unwrap_or_else(|_| usual.into()))
}

fn name_the_original() {
    let here = env::var("CARGO_MANIFEST_DIR").expect("cargo names the crate's folder");
    let folder = Path::new(&here).join("..").join(env::var("AVREMU_SRC").unwrap_or_else(|_| "../shared/docs/src".into()));
    // The program `hex` is built without the source; where it is needed and not there, original.rs says so.
    if let Ok(folder) = folder.canonicalize() {
        println!("cargo:rustc-env=AVREMU_FOLDER={}", folder.display());
        println!("cargo:rerun-if-changed={}", folder.display());
    }
    println!("cargo:rerun-if-env-changed=AVREMU_SRC");
}

fn link_before() {
    let folder = env::var("BENCH_BEFORE").expect("BENCH_BEFORE is the folder of libbefore.a");
    println!("cargo:rerun-if-env-changed=BENCH_BEFORE");
    println!("cargo:rerun-if-changed={folder}/libbefore.a");
    println!("cargo:rustc-link-search=native={folder}");
    println!("cargo:rustc-link-lib=static=before");
}

fn link_simavr() {
    let out = env::var("OUT_DIR").expect("cargo sets OUT_DIR");
    let (object, library) = (format!("{out}/simavr.o"), format!("{out}/libbench_simavr.a"));
    must(tool("CC", "cc").args(["-std=gnu11", "-O2", "-Wall", "-Wextra", "-Werror", "-c", "simavr.c", "-o", &object]));
    must(tool("AR", "ar").args(["crs", &library, &object]));
    println!("cargo:rerun-if-changed=simavr.c");
    println!("cargo:rustc-link-search=native={out}");
    println!("cargo:rustc-link-lib=static=bench_simavr");
    println!("cargo:rustc-link-lib=dylib=simavr");
}

fn main() {
    println!("cargo:rerun-if-changed=build.rs");
    name_the_original();
    if env::var_os("CARGO_FEATURE_BEFORE").is_some() {
        link_before();
    }
    if env::var_os("CARGO_FEATURE_SIMAVR").is_some() {
        link_simavr();
    }
}
