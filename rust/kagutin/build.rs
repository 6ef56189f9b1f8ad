//! Compiles dist/kagutin_all.c and src/lend.c into libkagutin_all.a, by the C compiler alone.
//!
//! Compiler: CC_<target>, TARGET_CC or CC, as usual; else cc for this machine, arm-none-eabi-gcc for Cortex-M. It must take
//! gcc's options. AR_<target>, TARGET_AR, AR likewise; CFLAGS_<target>, TARGET_CFLAGS or CFLAGS come last on its command
//! line. KAGUTIN_DIST names another folder with kagutin_all.c and kagutin_all.h.

use std::env;
use std::path::{Path, PathBuf};
use std::process::Command;

fn main() {
    let target = env::var("TARGET").unwrap();
    let out = PathBuf::from(env::var("OUT_DIR").unwrap());
    let here = PathBuf::from(env::var("CARGO_MANIFEST_DIR").unwrap());
    let dist = setting("KAGUTIN_DIST").map_or_else(|| here.join("../../dist"), PathBuf::from);
    let compiler = tool("CC", &target).unwrap_or_else(|| default_compiler(&target));
    let archiver = tool("AR", &target).unwrap_or_else(|| default_archiver(&compiler));

    let mut objects = Vec::new();
    for source in [dist.join("kagutin_all.c"), here.join("src/lend.c")] {
        let object = out.join(source.file_name().unwrap()).with_extension("o");
        let mut command = words(&compiler);
        command.args(["-std=c99", "-ffunction-sections", "-fdata-sections"]).args(options(&target));
        command.args(tool("CFLAGS", &target).unwrap_or_default().split_whitespace());
        command.arg("-I").arg(&dist).arg("-c").arg(&source).arg("-o").arg(&object);
        run(command);
        println!("cargo:rerun-if-changed={}", source.display());
        objects.push(object);
    }
    println!("cargo:rerun-if-changed={}", dist.join("kagutin_all.h").display());
    archive(&archiver, &out.join("libkagutin_all.a"), &objects);
    println!("cargo:rustc-link-search=native={}", out.display());
    println!("cargo:rustc-link-lib=static=kagutin_all");
}

/// An environment variable; another value of it builds anew.
fn setting(name: &str) -> Option<String> {
    println!("cargo:rerun-if-env-changed={name}");
    env::var(name).ok().filter(|value| !value.is_empty())
}

fn tool(name: &str, target: &str) -> Option<String> {
    let foreign = env::var("HOST").map_or(true, |host| host != target);
    setting(&format!("{name}_{target}"))
        .or_else(|| setting(&format!("{name}_{}", target.replace('-', "_"))))
        .or_else(|| setting(&format!("TARGET_{name}")).filter(|_| foreign))
        .or_else(|| setting(name))
}

fn default_compiler(target: &str) -> String {
    if env::var("HOST").map_or(false, |host| host == target) {
        return "cc".to_string();
    }
    assert!(target.starts_with("thumb"), "kagutin: no C compiler is known for {target}; name it: TARGET_CC=...");
    "arm-none-eabi-gcc".to_string()
}

/// The one that belongs to a gcc with a prefix; else ar.
fn default_archiver(compiler: &str) -> String {
    compiler.strip_suffix("-gcc").map_or_else(|| "ar".to_string(), |prefix| format!("{prefix}-ar"))
}

/// What the profile and the machine ask for.
fn options(target: &str) -> Vec<&'static str> {
    let mut list = match env::var("OPT_LEVEL").as_deref() {
        Ok("0") => vec!["-O1"],
        Ok("s" | "z") => vec!["-Os"],
        _ => vec!["-O2"],
    };
    if env::var("DEBUG").map_or(false, |debug| debug == "true") {
        list.push("-g");
    }
    if target.starts_with("thumb") {
        list.push("-mthumb");
        list.extend(core_of(target));
        list.extend(if target.ends_with("hf") {
            &["-mfloat-abi=hard", "-mfpu=fpv4-sp-d16"][..]
        } else {
            &["-mfloat-abi=soft"]
        });
    } else if !target.contains("windows") && !target.contains("none") {
        list.push("-fPIC");
    }
    list
}

fn core_of(target: &str) -> Option<&'static str> {
    let names = [
        ("thumbv6m", "-march=armv6s-m"),
        ("thumbv7m", "-march=armv7-m"),
        ("thumbv7em", "-march=armv7e-m"),
        ("thumbv8m.base", "-march=armv8-m.base"),
        ("thumbv8m.main", "-march=armv8-m.main"),
    ];
    names.iter().find(|(start, _)| target.starts_with(&format!("{start}-"))).map(|(_, option)| *option)
}

/// A compiler may be two words, as `ccache gcc`.
fn words(text: &str) -> Command {
    let mut parts = text.split_whitespace();
    let mut command = Command::new(parts.next().unwrap_or("cc"));
    command.args(parts);
    command
}

fn archive(archiver: &str, library: &Path, objects: &[PathBuf]) {
    let _ = std::fs::remove_file(library);
    let mut command = words(archiver);
    command.arg("rcs").arg(library).args(objects);
    run(command);
}

fn run(mut command: Command) {
    match command.status() {
        Ok(status) if status.success() => {}
        Ok(status) => panic!("kagutin: {command:?} ended with {status}"),
        Err(error) => panic!("kagutin: {command:?}: {error}. A C compiler is needed: install gcc, or name one by CC"),
    }
}
