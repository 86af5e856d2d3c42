// Links the library that the functions call. On x86-64 Linux it is the proved one, which `tools/build library` writes to target/staticlib/
// of the repository; HUB_C_DIR names another folder. With the feature `portable`, and on any other target, it is the portable crate:
// tools/portable writes it from the proved sources, and it is compiled here, with the flags of RUSTFLAGS.
use std::env;
use std::fs;
use std::path::{Path, PathBuf};
use std::process::Command;

fn variable(name: &str) -> String {
    env::var(name).unwrap_or_else(|_| panic!("cargo sets {name}"))
}

fn repository() -> PathBuf {
    Path::new(&variable("CARGO_MANIFEST_DIR")).join("..")
}

/// Runs a command, which must succeed.
fn run(command: &mut Command) {
    let status = command.status().unwrap_or_else(|error| panic!("{command:?}: {error}"));
    assert!(status.success(), "{command:?}: {status}");
}

fn link_proved() {
    println!("cargo:rerun-if-env-changed=HUB_C_DIR");
    let folder = env::var_os("HUB_C_DIR").map_or(repository().join("target/staticlib"), PathBuf::from);
    let archive = folder.join("libhub_c.a");
    println!("cargo:rerun-if-changed={}", archive.display());
    if !archive.exists() {
        panic!("libhub_c.a is not there: run `tools/build library` in the repository first, or build with the feature `portable`");
    }
    println!("cargo:rustc-link-search=native={}", folder.display());
    println!("cargo:rustc-link-lib=static=hub_c");
}

/// Compiles a crate that tools/portable wrote into `folder`, and leaves it where the linker finds it as a library of C. It may use the crates compiled there before.
fn compile(name: &str, source: &Path, folder: &Path, uses: &[&str]) {
    let mut rustc = Command::new(variable("RUSTC"));
    rustc.args([
        "--edition",
        "2024",
        "--crate-type",
        "rlib",
        "--crate-name",
        name,
        "--target",
        &variable("TARGET"),
    ]);
    rustc
        .args(["-C", "opt-level=3"])
        .args(variable("CARGO_ENCODED_RUSTFLAGS").split_terminator('\x1f'));
    rustc.arg("--out-dir").arg(folder).arg("-L").arg(folder).arg(source);
    for used in uses {
        rustc.args(["--extern", used]);
    }
    run(&mut rustc);
    fs::copy(
        folder.join(format!("lib{name}.rlib")),
        folder.join(format!("lib{name}.a")),
    )
    .expect("a copy of the compiled crate");
}

fn link_portable() {
    let repository = repository();
    let folder = Path::new(&variable("OUT_DIR")).to_path_buf();
    println!("cargo:rerun-if-changed={}", repository.join("tools/portable").display());
    println!("cargo:rerun-if-changed={}", repository.join("crates.txt").display());
    for crate_folder in fs::read_dir(repository.join("crates"))
        .expect("the folder crates")
        .flatten()
    {
        println!("cargo:rerun-if-changed={}", crate_folder.path().join("src").display());
    }
    let portable = folder.join("portable");
    run(Command::new(repository.join("tools/portable")).arg(&portable));
    compile("hubplan_portable", &portable.join("src/lib.rs"), &folder, &[]);
    compile("hub_c", &portable.join("c/src/lib.rs"), &folder, &["hubplan_portable"]);
    println!("cargo:rustc-link-search=native={}", folder.display());
    // The linker looks for what a library needs in those after it.
    println!("cargo:rustc-link-lib=static:-bundle=hub_c");
    println!("cargo:rustc-link-lib=static:-bundle=hubplan_portable");
}

fn main() {
    println!("cargo:rerun-if-changed=build.rs");
    let proved_links = variable("CARGO_CFG_TARGET_ARCH") == "x86_64" && variable("CARGO_CFG_TARGET_OS") == "linux";
    if proved_links && env::var_os("CARGO_FEATURE_PORTABLE").is_none() {
        link_proved();
    } else {
        link_portable();
    }
}
