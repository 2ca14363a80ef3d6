//! Links the library that is shipped with the repository, after comparing its sum.
use std::env;
use std::path::{Path, PathBuf};
use std::process::Command;

/// The folder of the archive and its sums: `PLUMTREE_LIB_DIR`, or the one of the repository for the target.
fn folder() -> PathBuf {
    if let Some(folder) = env::var_os("PLUMTREE_LIB_DIR") {
        return PathBuf::from(folder);
    }
    let target = env::var("TARGET").unwrap_or_default();
    let shipped = match target.as_str() {
        "x86_64-unknown-linux-gnu" => "x86_64-linux",
        "aarch64-unknown-linux-gnu" => "aarch64-linux",
        _ => panic!("the library is shipped for Linux with glibc on x86-64 and aarch64, and this is {target}"),
    };
    Path::new(&env::var("CARGO_MANIFEST_DIR").expect("cargo names the package's folder"))
        .join("../../dist")
        .join(shipped)
}

/// Compares the archive with its line in `SHA256SUMS`.
fn compare(folder: &Path) {
    let sums = folder.join("SHA256SUMS");
    let all = std::fs::read_to_string(&sums)
        .unwrap_or_else(|error| panic!("{} cannot be read: {error}", sums.display()));
    let wanted = all
        .lines()
        .filter_map(|line| line.split_once("  "))
        .find(|(_, name)| *name == "libplumtree.a")
        .map(|(sum, _)| sum.to_owned())
        .unwrap_or_else(|| panic!("{} has no line for libplumtree.a", sums.display()));
    let ran = Command::new("sha256sum")
        .arg(folder.join("libplumtree.a"))
        .output()
        .unwrap_or_else(|error| panic!("sha256sum (of coreutils) does not run: {error}"));
    let given = String::from_utf8_lossy(&ran.stdout);
    let given = given.split_whitespace().next().unwrap_or("none");
    assert!(
        given == wanted,
        "libplumtree.a in {} has the sum {given}, and SHA256SUMS wants {wanted}",
        folder.display()
    );
}

fn main() {
    let folder = folder();
    compare(&folder);
    println!("cargo:rustc-link-search=native={}", folder.display());
    println!("cargo:rustc-link-lib=static=plumtree");
    println!("cargo:rerun-if-env-changed=PLUMTREE_LIB_DIR");
    for name in ["libplumtree.a", "SHA256SUMS"] {
        println!("cargo:rerun-if-changed={}", folder.join(name).display());
    }
}
