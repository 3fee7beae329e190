// Links target/staticlib/libhost.a of the repository, or the one in the folder that AVR_CORE_LIB names.
use std::env;
use std::path::Path;
use std::process::exit;

/// Why the archive cannot be linked.
fn fault(archive: &Path) -> Option<String> {
    let machine = env::var("CARGO_CFG_TARGET_ARCH").expect("cargo names the machine");
    if !archive.is_file() {
        return Some(format!("no {}: run tools/archive in the project's root, or set AVR_CORE_LIB to its folder", archive.display()));
    }
    (machine != "x86_64").then(|| format!("{} is for x86-64, and this build is for {machine}", archive.display()))
}

fn main() {
    let root = Path::new(env!("CARGO_MANIFEST_DIR")).ancestors().nth(2).expect("host/rust stands in the project");
    let folder = env::var_os("AVR_CORE_LIB").map_or(root.join("target/staticlib"), |folder| folder.into());
    let archive = folder.join("libhost.a");
    println!("cargo:rerun-if-env-changed=AVR_CORE_LIB");
    println!("cargo:rerun-if-changed={}", archive.display());
    if let Some(fault) = fault(&archive) {
        eprintln!("{fault}");
        exit(1);
    }
    println!("cargo:rustc-link-search=native={}", folder.display());
    println!("cargo:rustc-link-lib=static=host");
}
