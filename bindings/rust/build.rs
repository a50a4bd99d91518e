//! Finds the library libbisquemop.a for the target, and has it linked. It is looked for in
//!  1. the folder BISQUEMOP_LIB_DIR, if that is set;
//!  2. target/NAME of the repository that this package stands in, where `make TARGET=NAME` leaves it. Where it is not there,
//!     it is compiled from the repository's dist/, if that was made of the sources that are there;
//!  3. the folder that pkg-config names, if it is installed for this target.

use std::env;
use std::path::{Path, PathBuf};
use std::process::{exit, Command};

const ARCHIVE: &str = "libbisquemop.a";

/// What the Makefile calls a target of Rust's.
const TARGETS: [(&str, &str); 18] = [
    ("x86_64-unknown-linux-gnu", "x86_64-linux"),
    ("x86_64-unknown-linux-musl", "x86_64-linux"),
    ("aarch64-unknown-linux-gnu", "aarch64-linux"),
    ("aarch64-unknown-linux-musl", "aarch64-linux"),
    ("armv7-unknown-linux-gnueabihf", "armv7-linux"),
    ("riscv64gc-unknown-linux-gnu", "riscv64-linux"),
    ("thumbv7em-none-eabi", "cortex-m4"),
    ("thumbv7em-none-eabihf", "cortex-m4f"),
    ("thumbv6m-none-eabi", "cortex-m0plus"),
    ("thumbv8m.main-none-eabi", "cortex-m33"),
    ("thumbv8m.main-none-eabihf", "cortex-m33"),
    ("riscv32imc-unknown-none-elf", "riscv32imc"),
    ("wasm32-unknown-unknown", "wasm32"),
    ("aarch64-linux-android", "aarch64-android"),
    ("aarch64-apple-ios", "arm64-ios"),
    ("aarch64-apple-darwin", "arm64-macos"),
    ("x86_64-apple-darwin", "x86_64-macos"),
    ("x86_64-pc-windows-msvc", "x86_64-windows"),
];

/// A folder, if it has the library.
fn with_archive(folder: PathBuf) -> Option<PathBuf> {
    println!("cargo:rerun-if-changed={}", folder.join(ARCHIVE).display());
    folder.join(ARCHIVE).is_file().then_some(folder)
}

/// Compiles the library from dist/. What is wrong is said, and nothing is left then.
fn compile(repository: &Path, name: &str) -> Option<()> {
    let script = repository.join("scripts/build-target");
    if !script.is_file() {
        return None;
    }
    let answer = Command::new("sh").arg(script).arg(name).output().ok()?;
    eprint!("{}", String::from_utf8_lossy(&answer.stderr));
    answer.status.success().then_some(())
}

fn in_repository(name: &str) -> Option<PathBuf> {
    let repository = Path::new(&env::var_os("CARGO_MANIFEST_DIR")?).join("../..");
    let folder = repository.join("target").join(name);
    with_archive(folder.clone()).or_else(|| compile(&repository, name).and_then(|()| with_archive(folder)))
}

/// What pkg-config says of the library.
fn asked(variable: &str) -> Option<String> {
    let answer = Command::new("pkg-config").arg(format!("--variable={variable}")).arg("bisquemop").output().ok()?;
    let said = String::from_utf8(answer.stdout).ok()?;
    answer.status.success().then(|| said.trim().to_owned())
}

/// One that is installed may be for another machine.
fn installed(name: &str) -> Option<PathBuf> {
    println!("cargo:rerun-if-env-changed=PKG_CONFIG_PATH");
    if asked("target")? != name {
        return None;
    }
    with_archive(PathBuf::from(asked("libdir")?))
}

fn fail(words: &str) -> ! {
    eprintln!("bisquemop: {words}");
    exit(1)
}

fn main() {
    println!("cargo:rerun-if-changed=build.rs");
    println!("cargo:rerun-if-env-changed=BISQUEMOP_LIB_DIR");
    let triple = env::var("TARGET").unwrap_or_default();
    let name = TARGETS.iter().find(|row| row.0 == triple).map(|row| row.1);
    let folder = match (env::var_os("BISQUEMOP_LIB_DIR"), name) {
        (Some(given), _) => with_archive(PathBuf::from(given))
            .unwrap_or_else(|| fail(&format!("the folder BISQUEMOP_LIB_DIR has no {ARCHIVE}"))),
        (None, None) => fail(&format!("{triple} is unknown: set BISQUEMOP_LIB_DIR to the folder of {ARCHIVE}")),
        (None, Some(name)) => in_repository(name).or_else(|| installed(name)).unwrap_or_else(|| {
            fail(&format!("there is no {ARCHIVE}: run make TARGET={name}, or make install, or set BISQUEMOP_LIB_DIR"))
        }),
    };
    println!("cargo:rustc-link-search=native={}", folder.display());
    println!("cargo:rustc-link-lib=static=bisquemop");
}
