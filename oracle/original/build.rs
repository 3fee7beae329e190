//! Says where the original's source stands: the folder in AVREMU_SRC, or ../shared/docs/src, both seen from the project's root.

use std::env;
use std::path::Path;

const FILES: [&str; 3] = ["src/cores.rs", "src/memory.rs", "src/peripherals/cpuint.rs"];

fn main() {
    let here = env::var("CARGO_MANIFEST_DIR").expect("cargo names the crate's folder");
    let root = Path::new(&here).join("../..").canonicalize().expect("the project's root");
    let folder = root.join(env::var("AVREMU_SRC").unwrap_or_else(|_| "../shared/docs/src".into()));
    for file in FILES {
        let path = folder.join(file);
        assert!(path.is_file(), "no {}: set AVREMU_SRC to the folder of the Rust source", path.display());
        println!("cargo:rerun-if-changed={}", path.display());
    }
    println!("cargo:rerun-if-env-changed=AVREMU_SRC");
    println!("cargo:rustc-env=AVREMU_FOLDER={}", folder.canonicalize().expect("it has files").display());
}
