//! Compiles the peer in C as the archive is: for any x86-64, with -O3. Warnings are errors.
use std::env;
use std::path::{Path, PathBuf};
use std::process::Command;

const FLAGS: [&str; 9] = [
    "-std=c11",
    "-O3",
    "-march=x86-64",
    "-fPIE",
    "-Wall",
    "-Wextra",
    "-Wconversion",
    "-Werror",
    "-c",
];
const SOURCES: [&str; 10] = [
    "peer",
    "task",
    "semaphore",
    "flag",
    "mailbox",
    "pool",
    "time",
    "setup",
    "check",
    "damage",
];

fn run(command: &mut Command) {
    let ended = command.status();
    if !ended.is_ok_and(|status| status.success()) {
        panic!("{command:?} failed");
    }
}

fn compiled(source: &str, out: &Path) -> PathBuf {
    let object = out.join(source).with_extension("o");
    let source = Path::new("c").join(source).with_extension("c");
    run(Command::new("cc")
        .args(FLAGS)
        .arg(source)
        .arg("-o")
        .arg(&object));
    object
}

fn main() {
    println!("cargo:rerun-if-changed=c");
    let out = PathBuf::from(env::var_os("OUT_DIR").expect("cargo names a folder"));
    let objects = SOURCES.map(|source| compiled(source, &out));
    let archive = out.join("libpeer.a");
    run(Command::new("ar").arg("rcs").arg(archive).args(objects));
    println!("cargo:rustc-link-search=native={}", out.display());
    println!("cargo:rustc-link-lib=static=peer");
}
