//! Links the program with the monitor's library and the kit's C library functions, whose paths `run` hands over, and
//! notes the compiler's version.

use std::env;
use std::process::Command;

fn main() {
    println!("cargo:rerun-if-changed=build.rs");
    for name in ["BENCH_CALLS", "BENCH_LIBC"] {
        println!("cargo:rerun-if-env-changed={name}");
        if let Ok(path) = env::var(name) {
            println!("cargo:rerun-if-changed={path}");
            println!("cargo:rustc-link-arg-bins={path}");
        }
    }
    println!("cargo:rustc-env=BENCH_RUSTC={}", compiler());
}

fn compiler() -> String {
    let rustc = env::var("RUSTC").unwrap_or_else(|_| "rustc".to_string());
    match Command::new(rustc).arg("--version").output() {
        Ok(told) => String::from_utf8_lossy(&told.stdout).trim().to_string(),
        Err(_) => "rustc of unknown version".to_string(),
    }
}
