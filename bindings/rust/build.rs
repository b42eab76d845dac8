// Links libchimenickel.a, from the folder that CHIMENICKEL_LIB names; or else, in a source tree, from where bin/build-lib
// writes it, and elsewhere from where pkg-config says that it is installed. It serves tests/oracle too, which stands as
// deep in the tree.
//
// The library is copied to where cargo builds and linked from there, and the path that cargo watches is told from the
// crate's folder: so a tree that was copied with what cargo built links its own library, and not the first tree's.
use std::path::{Path, PathBuf};
use std::{env, fs, process};

/// Where the library is installed, or an empty path.
fn installed() -> PathBuf {
    let asked = process::Command::new("pkg-config").args(["--variable=libdir", "chimenickel"]).output();
    let told = asked.map(|told| String::from_utf8_lossy(&told.stdout).trim().to_string());
    PathBuf::from(told.unwrap_or_default())
}

fn main() {
    // set by cargo for this run: those of the compilation may be another tree's
    let [here, out] = ["CARGO_MANIFEST_DIR", "OUT_DIR"].map(|name| PathBuf::from(env::var_os(name).expect(name)));
    let name = Path::new("libchimenickel.a");
    let named = env::var_os("CHIMENICKEL_LIB").filter(|folder| !folder.is_empty());
    let (library, watched) = match named.map(PathBuf::from) {
        Some(folder) => (here.join(&folder).join(name), folder.join(name)),
        None if here.join("../../crates.txt").exists() => {
            (here.join("../../target/lib").join(name), Path::new("../../target/lib").join(name))
        }
        None => (installed().join(name), installed().join(name)),
    };
    println!("cargo:rerun-if-env-changed=CHIMENICKEL_LIB");
    println!("cargo:rerun-if-changed={}", watched.display());
    if let Err(error) = fs::copy(&library, out.join(name)) {
        let advice = "bin/build-lib writes the library to target/lib, the package chimenickel installs it, and \
                      CHIMENICKEL_LIB may name another folder";
        // a cargo that does not know this key shows the line as it stands
        println!("cargo::error={} cannot be linked ({error}): {advice}", library.display());
        process::exit(1);
    }
    println!("cargo:rustc-link-search=native={}", out.display());
    println!("cargo:rustc-link-lib=static=chimenickel");
}
