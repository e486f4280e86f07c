// Links the proved library's archive; on a machine that is not x86-64 makes the relay of it instead.

use std::path::{Path, PathBuf};
use std::process::Command;

/// The proved library, from the folder of this package.
const ARCHIVE: &str = "../crates/cabi/out/libcabi.a";

fn main() {
    println!("cargo::rerun-if-changed=build.rs");
    println!("cargo::rerun-if-changed={ARCHIVE}");
    println!("cargo::rerun-if-changed=relay/relay.c");
    println!("cargo::rerun-if-env-changed=RATTLE_HOME");
    if let Err(messages) = build() {
        for message in messages.lines() {
            println!("cargo::error={message}");
        }
    }
}

fn build() -> Result<(), String> {
    let archive = Path::new(&variable("CARGO_MANIFEST_DIR")).join(ARCHIVE);
    if !archive.is_file() {
        return Err("the proved library crates/cabi/out/libcabi.a is not built yet\n\
                    run `rt lib` in crates/cabi first; it proves the code, which takes some minutes"
            .to_string());
    }
    if variable("CARGO_CFG_TARGET_ARCH") == "x86_64" {
        let folder = archive.parent().expect("the archive stands in a folder");
        println!("cargo::rustc-link-search=native={}", folder.display());
        println!("cargo::rustc-link-lib=static=cabi");
        return Ok(());
    }
    let kit = kit().ok_or("no Rattle kit: `rt` is not on the path, and RATTLE_HOME is not set")?;
    make_relay(&archive, &kit)
}

/// Compiles and links the relay with the compiler and linker of the kit.
fn make_relay(archive: &Path, kit: &Path) -> Result<(), String> {
    let toolchain = kit.join("toolchain");
    let folder = PathBuf::from(variable("OUT_DIR"));
    let (object, relay) = (folder.join("relay.o"), folder.join("relay"));
    run(Command::new(toolchain.join("bin/clang"))
        .args(["--target=x86_64-unknown-linux-gnu", "-std=c11", "-O2", "-fPIC", "-Wall", "-Werror", "-c"])
        .arg("relay/relay.c")
        .arg("-o")
        .arg(&object))?;
    run(Command::new(kit.join("bin/rattle-link"))
        .args(["--target", "x86_64-unknown-linux-gnu", "--toolchain"])
        .arg(&toolchain)
        .arg("-o")
        .arg(&relay)
        .arg(&object)
        .arg(archive))?;
    println!("cargo::rustc-env=KNELLNETTLE_TOOLCHAIN={}", toolchain.display());
    println!("cargo::rustc-env=KNELLNETTLE_RELAY={}", relay.display());
    Ok(())
}

/// The folder of the kit for this machine, found as `rt` finds it.
fn kit() -> Option<PathBuf> {
    let home = match std::env::var_os("RATTLE_HOME") {
        Some(home) => PathBuf::from(home),
        None => {
            let folders = std::env::var_os("PATH")?;
            let rt = std::env::split_paths(&folders).map(|folder| folder.join("rt")).find(|rt| rt.is_file())?;
            rt.canonicalize().ok()?.parent()?.parent()?.to_path_buf()
        }
    };
    Some(home.join("on").join(std::env::consts::ARCH))
}

fn run(command: &mut Command) -> Result<(), String> {
    let output = command.output().map_err(|why| format!("{}: {why}", command.get_program().display()))?;
    if output.status.success() {
        return Ok(());
    }
    Err(format!("{}: {}\n{}", command.get_program().display(), output.status, String::from_utf8_lossy(&output.stderr)))
}

fn variable(name: &str) -> String {
    std::env::var(name).unwrap_or_else(|_| panic!("cargo sets {name}"))
}
