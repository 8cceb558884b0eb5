//! Links libjellyplain.a, which `make` writes to target/lib of the repository, from there or from the folder that the environment variable `JELLYPLAIN_STATICLIB` names.
//!
//! The folder is named by its whole path. Cargo runs this script in the package's own folder and doesn't say where it was called itself, and it wouldn't run the script again where only that has
//! changed: a relative path would be taken from a place that nobody named. For a path beside a project's own files there is cargo's configuration, .cargo/config.toml:
//!
//!     [env]
//!     JELLYPLAIN_STATICLIB = { value = "vendor/jellyplain/lib", relative = true }

use std::path::PathBuf;

/// What a package's user reads, and no library.
fn refuse(reason: &str) -> ! {
    eprintln!("{reason}");
    std::process::exit(1)
}

/// A variable that cargo sets for every build script.
fn set_by_cargo(name: &str) -> String {
    std::env::var(name).unwrap_or_else(|_| refuse(&format!("{name} is not set: this is a build script, which cargo runs")))
}

fn main() {
    println!("cargo:rerun-if-changed=build.rs");
    println!("cargo:rerun-if-env-changed=JELLYPLAIN_STATICLIB");
    let target = ["ARCH", "OS", "POINTER_WIDTH"].map(|part| set_by_cargo(&format!("CARGO_CFG_TARGET_{part}")));
    if target != ["x86_64", "linux", "64"] {
        refuse(&format!(
            "jellyplain is for x86-64 Linux alone, since the toolchain that proves the library writes code for no other target; the target here is {}",
            set_by_cargo("TARGET")
        ));
    }
    let named = std::env::var_os("JELLYPLAIN_STATICLIB").filter(|folder| !folder.is_empty()).map(PathBuf::from);
    if let Some(relative) = named.as_ref().filter(|folder| folder.is_relative()) {
        refuse(&format!(
            "JELLYPLAIN_STATICLIB is '{}', which is relative, and cargo doesn't say from where: name the folder by its whole path, or in .cargo/config.toml with `relative = true`",
            relative.display()
        ));
    }
    let folder = named.clone().unwrap_or_else(|| PathBuf::from(set_by_cargo("CARGO_MANIFEST_DIR")).join("../target/lib"));
    let archive = folder.join("libjellyplain.a");
    println!("cargo:rerun-if-changed={}", archive.display());
    if !archive.exists() {
        let advice = match named {
            Some(_) => "JELLYPLAIN_STATICLIB has to name a folder that has it",
            None => "run `make` in the repository's root, or let JELLYPLAIN_STATICLIB name the folder that has it",
        };
        refuse(&format!("{} is missing: {advice}", archive.display()));
    }
    println!("cargo:rustc-link-search=native={}", folder.display());
    println!("cargo:rustc-link-lib=static=jellyplain");
}
