//! Tells cargo where libmonitor.a is, and where a feature is on the library of its name, libusage.a, libcookie.a, libjourneys.a or libreach_table.a:
//! in the folder that `MONITOR_LIB_DIR` names, or where `tools/static-libraries` leaves them.

use std::env;
use std::path::{Path, PathBuf};

fn main() {
    println!("cargo::rerun-if-env-changed=MONITOR_LIB_DIR");
    let folder = env::var_os("MONITOR_LIB_DIR").map_or_else(built_here, PathBuf::from);
    println!("cargo::rustc-link-search=native={}", folder.display());
    link("monitor", &folder);
    for (feature, name) in [
        ("CARGO_FEATURE_USAGE", "usage"),
        ("CARGO_FEATURE_COOKIE", "cookie"),
        ("CARGO_FEATURE_JOURNEYS", "journeys"),
        ("CARGO_FEATURE_REACH_TABLE", "reach_table"),
    ] {
        if env::var_os(feature).is_some() {
            link(name, &folder);
        }
    }
}

fn link(name: &str, folder: &Path) {
    let library = folder.join(format!("lib{name}.a"));
    println!("cargo::rerun-if-changed={}", library.display());
    if library.is_file() {
        println!("cargo::rustc-link-lib=static={name}");
    } else {
        println!(
            "cargo::error={} is not there: run `tools/static-libraries {name}`, or set MONITOR_LIB_DIR to the folder that has it",
            library.display()
        );
    }
}

fn built_here() -> PathBuf {
    Path::new(&env::var_os("CARGO_MANIFEST_DIR").expect("cargo sets CARGO_MANIFEST_DIR"))
        .join("../../target/staticlib")
}
