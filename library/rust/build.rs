//! Finds the static library and its header: below the folder that `QLOCK_PREFIX` names, or else by
//! `pkg-config`. What calls answer, and the limits of a domain, are taken from the header.

use std::env;
use std::fs;
use std::path::{Path, PathBuf};
use std::process::{Command, exit};

/// Where the header is, and where the archives are.
struct Found {
    include: PathBuf,
    libraries: PathBuf,
}

const HEADER: &str = "qlock.h";
/// The locks, and the calls of the heap below them.
const ARCHIVES: [&str; 2] = ["qlock", "qlock_heap"];

fn fail(why: &str) -> ! {
    eprintln!("qlock: {why}");
    eprintln!("qlock: install the library by `./qlock --install DIR` in the sources of qlock;");
    eprintln!("qlock: then set QLOCK_PREFIX to DIR, or add DIR/lib/pkgconfig to PKG_CONFIG_PATH");
    exit(1)
}

/// The folder of the library and that of the header, as `pkg-config` tells them.
fn by_pkg_config() -> Found {
    let run = Command::new("pkg-config").args(["--cflags", "--libs", "qlock"]).output();
    let told = match run {
        Ok(run) if run.status.success() => String::from_utf8_lossy(&run.stdout).into_owned(),
        Ok(run) => fail(&format!(
            "QLOCK_PREFIX is not set, and pkg-config said: {}",
            String::from_utf8_lossy(&run.stderr).trim()
        )),
        Err(error) => {
            fail(&format!("QLOCK_PREFIX is not set, and pkg-config did not start: {error}"))
        }
    };
    let word = |flag: &str| {
        told.split_whitespace().find_map(|word| word.strip_prefix(flag)).map(PathBuf::from)
    };
    match (word("-I"), word("-L")) {
        (Some(include), Some(libraries)) => Found { include, libraries },
        _ => fail(&format!("pkg-config names no folder by -I and -L: {}", told.trim())),
    }
}

fn found() -> Found {
    match env::var_os("QLOCK_PREFIX") {
        Some(prefix) => Found {
            include: Path::new(&prefix).join("include"),
            libraries: Path::new(&prefix).join("lib"),
        },
        None => by_pkg_config(),
    }
}

/// The constant of a line of the header as `QLOCK_NAME = 3,`.
fn constant(line: &str) -> Option<String> {
    let (name, rest) = line.trim().strip_prefix("QLOCK_")?.split_once(" = ")?;
    let digits: String = rest.chars().take_while(char::is_ascii_digit).collect();
    let number: u32 = digits.parse().ok()?;
    Some(format!("pub const {name}: u32 = {number};\n"))
}

/// The constants of the header's enumerations; several may stand in a line, behind `{` or `,`.
fn constants(header: &str) -> String {
    header.split(['\n', '{', ',']).filter_map(constant).collect()
}

fn main() {
    let found = found();
    let header = found.include.join(HEADER);
    let text = fs::read_to_string(&header)
        .unwrap_or_else(|error| fail(&format!("{}: {error}", header.display())));
    let out = PathBuf::from(env::var_os("OUT_DIR").unwrap()).join("header.rs");
    fs::write(&out, constants(&text))
        .unwrap_or_else(|error| fail(&format!("{}: {error}", out.display())));
    println!("cargo::rerun-if-changed={}", header.display());
    println!("cargo::rustc-link-search=native={}", found.libraries.display());
    for name in ARCHIVES {
        let archive = found.libraries.join(format!("lib{name}.a"));
        if !archive.exists() {
            fail(&format!("{} is not there", archive.display()));
        }
        println!("cargo::rerun-if-changed={}", archive.display());
        println!("cargo::rustc-link-lib=static={name}");
    }
    for name in ["QLOCK_PREFIX", "PKG_CONFIG_PATH"] {
        println!("cargo::rerun-if-env-changed={name}");
    }
}
