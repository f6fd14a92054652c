//! Finds the archive libpanel.a and links it: in the folder that PANEL_LIB_DIR names, else in target/staticlib of this
//! repository. Says plainly what to do where there is none, or where the target is not the archive's.
use std::env;
use std::path::PathBuf;
use std::process::{exit, Command};

fn main() {
    println!("cargo:rerun-if-changed=build.rs");
    println!("cargo:rerun-if-env-changed=PANEL_LIB_DIR");
    if let Err(words) = linked() {
        eprintln!("panel: {}", words);
        exit(1);
    }
    known_to_the_compiler();
}

/// The archive is x86-64 code with the calls of System V, in ELF.
fn linked() -> Result<(), String> {
    let arch = variable("CARGO_CFG_TARGET_ARCH");
    let os = variable("CARGO_CFG_TARGET_OS");
    let elsewhere = ["windows", "uefi", "cygwin", "macos", "ios", "tvos", "watchos", "visionos"];
    if arch != "x86_64" || variable("CARGO_CFG_TARGET_POINTER_WIDTH") != "64" || elsewhere.contains(&os.as_str()) {
        return Err(format!(
            "the archive is x86-64 System V code, and the target is {}. \
             Build for x86_64-unknown-linux-gnu (cargo build --target x86_64-unknown-linux-gnu); \
             on another machine the program then runs under an emulator, for instance qemu-x86_64. \
             bindings/rust/test says how.",
            variable("TARGET")
        ));
    }
    let named = env::var_os("PANEL_LIB_DIR").filter(|folder| !folder.is_empty());
    let folder = match &named {
        Some(folder) => PathBuf::from(folder),
        None => PathBuf::from(variable("CARGO_MANIFEST_DIR")).join("../../target/staticlib"),
    };
    let archive = folder.join("libpanel.a");
    println!("cargo:rerun-if-changed={}", archive.display());
    if !archive.is_file() {
        return Err(format!(
            "there is no archive {}. {}",
            archive.display(),
            match named {
                Some(_) => "PANEL_LIB_DIR has to name the folder of libpanel.a, by its full path.",
                None =>
                    "Make it with tools/archive of this repository, \
                         or set PANEL_LIB_DIR to the full path of the folder that has libpanel.a.",
            }
        ));
    }
    println!("cargo:rustc-link-search=native={}", folder.display());
    println!("cargo:rustc-link-lib=static=panel");
    Ok(())
}

/// `core::error::Error` is there from 1.81 on, and the check of cfg names from 1.80 on.
fn known_to_the_compiler() {
    let minor = minor_version().unwrap_or(0);
    if minor >= 80 {
        println!("cargo:rustc-check-cfg=cfg(panel_core_error)");
    }
    if minor >= 81 {
        println!("cargo:rustc-cfg=panel_core_error");
    }
}

/// The N of `rustc 1.N.P`.
fn minor_version() -> Option<u32> {
    let said = Command::new(env::var_os("RUSTC")?).arg("--version").output().ok()?;
    let said = String::from_utf8(said.stdout).ok()?;
    said.split_whitespace().nth(1)?.split('.').nth(1)?.parse().ok()
}

fn variable(name: &str) -> String {
    env::var(name).unwrap_or_default()
}
