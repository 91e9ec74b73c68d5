//! Links C archives into the two programs that call them and into nothing else, so that the
//! library and the other programs do without: those of the proved implementation into `compare`,
//! and they, those of an earlier state and the C to measure it against into `speed`.

use std::env;
use std::ffi::OsString;
use std::path::PathBuf;

/// A program that calls C, and the archives that have it.
struct Linked {
    program: &'static str,
    /// The variable that names the folder of the archives.
    variable: &'static str,
    /// The archives' names, without what every archive's name has around it.
    archives: &'static [&'static str],
}

/// Every program that calls C.
const PROGRAMS: [Linked; 2] = [
    Linked {
        program: "compare",
        variable: "STATICLIB",
        archives: &["panel", "trial"],
    },
    Linked {
        program: "speed",
        variable: "SPEEDLIB",
        archives: &["panel", "trial", "pace", "baseline", "before"],
    },
];

/// Names the archives of every program to cargo.
fn main() {
    for linked in &PROGRAMS {
        println!("cargo:rerun-if-env-changed={}", linked.variable);
        name_archives(linked);
    }
}

/// Names the archives of a program to cargo, and says that it has to look again when one of them
/// changes; one that is not there is waited for only where somebody named its folder.
fn name_archives(linked: &Linked) {
    let named = env::var_os(linked.variable).filter(|folder| !folder.is_empty());
    for name in linked.archives {
        let archive = folder(named.as_ref()).join(format!("lib{name}.a"));
        if named.is_some() || archive.exists() {
            println!("cargo:rerun-if-changed={}", archive.display());
        }
        let program = linked.program;
        println!("cargo:rustc-link-arg-bin={program}={}", archive.display());
    }
}

/// Gives a folder of archives: the one that is named, else the repository's own.
fn folder(named: Option<&OsString>) -> PathBuf {
    if let Some(named) = named {
        return PathBuf::from(named);
    }
    let package = env::var_os("CARGO_MANIFEST_DIR").expect("cargo names the package");
    PathBuf::from(package).join("../../target/archives")
}
