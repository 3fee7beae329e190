// Builds ../heat.c, ../crc16.c and ../sorting.c natively, with cc and ar or what CC and AR name, into the library that src/native.rs calls.
use std::process::Command;

const SOURCES: [&str; 3] = ["heat", "crc16", "sorting"];

fn must(command: &mut Command) {
    let status = command.status().unwrap_or_else(|error| panic!("{command:?}: {error}"));
    assert!(status.success(), "{command:?}: {status}");
}

fn tool(variable: &str, usual: &str) -> Command {
    Command::new(std::env::var(variable).unwrap_or_else(|_| usual.into()))
}

fn compile(name: &str, out: &str) -> String {
    let (source, object) = (format!("../{name}.c"), format!("{out}/{name}.o"));
    must(tool("CC", "cc").args(["-std=gnu11", "-O1", "-Wall", "-Wextra", "-Werror", "-c", &source, "-o", &object]));
    println!("cargo:rerun-if-changed={source}");
    println!("cargo:rerun-if-changed=../{name}.h");
    object
}

fn main() {
    let out = std::env::var("OUT_DIR").expect("cargo sets OUT_DIR");
    let library = format!("{out}/libfirmware.a");
    let objects = SOURCES.map(|name| compile(name, &out));
    must(tool("AR", "ar").args(["crs", &library]).args(objects));
    println!("cargo:rerun-if-changed=../flash.h");
    println!("cargo:rustc-link-search=native={out}");
    println!("cargo:rustc-link-lib=static=firmware");
}
