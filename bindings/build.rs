// Links libembed.a, which `tools/build staticlib embed` writes to target/staticlib of this repository; MONITOR_LIB names another
// folder that holds it.
use std::env;
use std::path::PathBuf;

fn main() {
    let beside = PathBuf::from(env::var("CARGO_MANIFEST_DIR").unwrap()).join("../target/staticlib");
    let folder = env::var_os("MONITOR_LIB")
        .map(PathBuf::from)
        .unwrap_or(beside);
    println!("cargo:rerun-if-env-changed=MONITOR_LIB");
    println!(
        "cargo:rerun-if-changed={}",
        folder.join("libembed.a").display()
    );
    println!("cargo:rustc-link-search=native={}", folder.display());
    println!("cargo:rustc-link-lib=static=embed");
}
