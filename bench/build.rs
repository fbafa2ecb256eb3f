//! Links the proved library, `crates/cabi/out/libcabi.a` of the repository, into the bench. If the
//! variable BEFORE names the archive of an earlier state, that one is linked too, under other
//! names, so that both are timed in one run. A relative name is taken from the root of the
//! repository.

use std::collections::BTreeSet;
use std::path::{Path, PathBuf};
use std::process::{exit, Command};
use std::{env, fs};

/// Functions that an earlier archive may not have, with the name that says that it has them.
const LATER: [(&str, &str); 4] = [
    ("gethwapiko_seams", "before_seams"),
    ("gethwapiko_cut_order", "before_order"),
    ("gethwapiko_write_job", "before_write"),
    ("gethwapiko_formula", "before_formula"),
];

fn main() {
    let root = Path::new(env!("CARGO_MANIFEST_DIR")).join("..");
    let archive = root.join("crates/cabi/out/libcabi.a");
    println!("cargo:rerun-if-changed={}", archive.display());
    println!("cargo:rerun-if-env-changed=BEFORE");
    println!("cargo:rustc-check-cfg=cfg(before)");
    for (_, name) in LATER {
        println!("cargo:rustc-check-cfg=cfg({name})");
    }
    match env::var_os("BEFORE").filter(|name| !name.is_empty()) {
        None => link(&archive),
        Some(before) => link_both(&archive, &root.join(before)),
    }
}

fn link(archive: &Path) {
    println!("cargo:rustc-link-arg-bins={}", archive.display());
}

/// Links copies of both. In the earlier one each name that it defines for others begins with
/// `before_`; those that it takes from outside, like memcpy, stay. In both every function begins at a multiple of
/// 64, since the same code at another place in a cache line takes a few in a hundred more or less
/// time.
fn link_both(archive: &Path, before: &Path) {
    println!("cargo:rerun-if-changed={}", before.display());
    println!("cargo:rustc-cfg=before");
    if let Some(missing) = [archive, before].into_iter().find(|archive| !archive.is_file()) {
        fail(&format!("BEFORE is set, and there is no archive {}", missing.display()));
    }
    let folder = PathBuf::from(env::var_os("OUT_DIR").expect("cargo sets it"));
    let names = folder.join("before.names");
    let defined = defined(before);
    for (_, name) in LATER.iter().filter(|(function, _)| defined.contains(*function)) {
        println!("cargo:rustc-cfg={name}");
    }
    let lines = defined.into_iter().map(|name| format!("{name} before_{name}\n"));
    fs::write(&names, lines.collect::<String>()).expect("a folder to write to");
    let rename = format!("--redefine-syms={}", names.display());
    for (from, to, more) in [(archive, "now.a", None), (before, "before.a", Some(rename))] {
        let copy = folder.join(to);
        let mut objcopy = Command::new("objcopy");
        objcopy.arg("--set-section-alignment=.text*=64").args(more);
        output(objcopy.arg(from).arg(&copy));
        link(&copy);
    }
}

/// The names that an archive defines for others.
fn defined(archive: &Path) -> BTreeSet<String> {
    let options = ["--extern-only", "--defined-only", "--format=posix"];
    let listed = output(Command::new("nm").args(options).arg(archive));
    // A line that ends in a colon names a member of the archive.
    let symbols = listed.lines().filter(|line| !line.ends_with(':'));
    symbols.filter_map(|line| line.split_once(' ')).map(|(name, _)| name.to_string()).collect()
}

/// What a program prints.
fn output(command: &mut Command) -> String {
    let program = command.get_program().to_string_lossy().into_owned();
    match command.output() {
        Err(error) => fail(&format!("BEFORE needs {program} (package binutils): {error}")),
        Ok(run) if !run.status.success() => fail(String::from_utf8_lossy(&run.stderr).trim_end()),
        Ok(run) => String::from_utf8_lossy(&run.stdout).into_owned(),
    }
}

fn fail(message: &str) -> ! {
    eprintln!("bench: {message}");
    exit(1)
}
