//! Links the board library: the archive in FENMANTLE_LIB_DIR where that is set, else the one that `rt lib` proves and builds
//! in `crates/board`.

use std::env;
use std::fs;
use std::path::{Path, PathBuf};
use std::process::{exit, Command};

fn main() {
    println!("cargo:rerun-if-env-changed=FENMANTLE_LIB_DIR");
    let folder = match env::var_os("FENMANTLE_LIB_DIR") {
        Some(folder) => {
            let folder = PathBuf::from(folder);
            println!("cargo:rerun-if-changed={}", folder.join("libboard.a").display());
            folder
        }
        None => build(),
    };
    // A copy of our own: the gate removes the one at the root, and cargo would not build it again.
    let own = PathBuf::from(env::var_os("OUT_DIR").expect("cargo sets it"));
    if let Err(why) = fs::copy(folder.join("libboard.a"), own.join("libboard.a")) {
        eprintln!("no libboard.a to be had from {}: {why}", folder.display());
        exit(1);
    }
    println!("cargo:rustc-link-search=native={}", own.display());
    println!("cargo:rustc-link-lib=static=board");
}

fn build() -> PathBuf {
    let root = Path::new(&env::var_os("CARGO_MANIFEST_DIR").expect("cargo sets it")).join("..");
    // Not the folder with the archive: it is newer than this script's start, and cargo would build it again each time.
    for part in sources(&root) {
        println!("cargo:rerun-if-changed={}", part.display());
    }
    println!("cargo:rerun-if-changed={}", root.join("crates.txt").display());
    match Command::new("rt").arg("lib").current_dir(root.join("crates/board")).output() {
        Ok(said) if said.status.success() => root.join("crates/board/out"),
        Ok(said) => {
            eprintln!("rt lib failed in crates/board:\n{}{}", String::from_utf8_lossy(&said.stdout), String::from_utf8_lossy(&said.stderr));
            exit(1);
        }
        Err(why) => {
            eprintln!("rt lib could not be run in crates/board ({why}): put the Rattle kit on the path, or set FENMANTLE_LIB_DIR");
            exit(1);
        }
    }
}

/// What the crates are proved from: their folders but for `out`, which is made.
fn sources(root: &Path) -> Vec<PathBuf> {
    let mut parts = Vec::new();
    for of in fs::read_dir(root.join("crates")).into_iter().flatten().flatten() {
        for part in fs::read_dir(of.path()).into_iter().flatten().flatten() {
            if part.file_name() != "out" {
                parts.push(part.path());
            }
        }
    }
    parts
}
