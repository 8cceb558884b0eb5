//! Compiles boost/cover.cpp where g++ finds Boost.Interval, which the configuration `boost` then says; bench/run installs it.

use std::path::PathBuf;
use std::process::{Command, Stdio};

const HEADER: &str = "boost/numeric/interval.hpp";
const SOURCE: &str = "boost/cover.cpp";

fn succeeds(command: &mut Command) -> bool {
    command.status().is_ok_and(|status| status.success())
}

fn main() {
    println!("cargo:rustc-check-cfg=cfg(boost)");
    println!("cargo:rerun-if-changed=build.rs");
    println!("cargo:rerun-if-changed={SOURCE}");
    // As long as it is missing cargo asks again.
    println!("cargo:rerun-if-changed=/usr/include/{HEADER}");
    if !succeeds(Command::new("g++").args(["-fsyntax-only", "-include", HEADER, "-x", "c++", "/dev/null"]).stderr(Stdio::null())) {
        return;
    }
    let out = PathBuf::from(std::env::var_os("OUT_DIR").unwrap());
    let (object, archive) = (out.join("cover.o"), out.join("libboost_cover.a"));
    let flags = ["-O3", "-std=c++17", "-Wall", "-Wextra", "-frounding-math", "-fno-math-errno"];
    assert!(succeeds(Command::new("g++").args(flags).args(["-c", SOURCE, "-o"]).arg(&object)), "{SOURCE} doesn't compile");
    assert!(succeeds(Command::new("ar").arg("rcs").arg(&archive).arg(&object)), "no archive of {SOURCE}");
    println!("cargo:rustc-cfg=boost");
    println!("cargo:rustc-link-search=native={}", out.display());
    println!("cargo:rustc-link-lib=static=boost_cover");
    println!("cargo:rustc-link-lib=stdc++");
}
