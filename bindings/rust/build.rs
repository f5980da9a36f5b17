//! Finds the archive of proved functions and has it linked: the one that WERMAZUL_ARCHIVE names, else the one that bindings/archive makes
//! of this repository. Where there is none, the crate can still be checked and documented: a warning says why, and only linking fails.
use std::env;
use std::path::{Path, PathBuf};
use std::process::{exit, Command};

/// A call that archives have since 0.2.0.
const SINCE_0_2_0: &[u8] = b"wermazul_layout";

fn stop(why: &str) -> ! {
    eprintln!("wermazul: {why}");
    exit(1)
}

fn folder(variable: &str) -> PathBuf {
    PathBuf::from(env::var_os(variable).expect("cargo sets it"))
}

/// The archive that WERMAZUL_ARCHIVE names. A relative path is taken from where the user stands, which only the shell's PWD tells, since
/// cargo runs this program in the package's folder; if nothing is there, from the package's folder.
fn named(path: PathBuf) -> PathBuf {
    if path.is_absolute() {
        return path;
    }
    println!("cargo:rerun-if-env-changed=PWD");
    let places = [env::var_os("PWD").map(PathBuf::from), Some(folder("CARGO_MANIFEST_DIR"))];
    let tried: Vec<PathBuf> = places.into_iter().flatten().map(|place| place.join(&path)).collect();
    match tried.iter().find(|it| it.exists()) {
        Some(found) => found.clone(),
        None => {
            let shown: Vec<String> = tried.iter().map(|it| it.display().to_string()).collect();
            stop(&format!("WERMAZUL_ARCHIVE names {}, and there is no {}.", path.display(), shown.join(" and no ")))
        }
    }
}

/// The machine that is built for, as bindings/archive takes it.
fn machine() -> Result<String, String> {
    let told = |key: &str| env::var(key).unwrap_or_default();
    let (machine, system) = (told("CARGO_CFG_TARGET_ARCH"), told("CARGO_CFG_TARGET_OS"));
    match (machine.as_str(), system.as_str()) {
        ("x86_64" | "aarch64", "linux") => Ok(machine),
        _ => Err(format!("an archive can be made for x86_64 and aarch64 Linux, and the target is {machine} {system}")),
    }
}

/// The archive that bindings/archive makes, or why it does not: it proves what is not proved yet, and prints the archive's path.
fn made() -> Result<PathBuf, String> {
    let root = folder("CARGO_MANIFEST_DIR").join("../..");
    let root = root.canonicalize().unwrap_or(root);
    for source in ["crates.txt", "bindings/archive", "bindings/native.sh", "bindings/needs.sh"] {
        println!("cargo:rerun-if-changed={}", root.join(source).display());
    }
    // Not the crates' folders whole: the toolchain writes beside the sources.
    for folder in root.join("crates").read_dir().into_iter().flatten().flatten() {
        for part in ["src", "specs", "proofs"] {
            let sources = folder.path().join(part);
            if sources.is_dir() {
                println!("cargo:rerun-if-changed={}", sources.display());
            }
        }
    }
    let script = root.join("bindings/archive");
    let ran = Command::new(&script).arg(machine()?).output();
    let output = ran.map_err(|error| format!("{} could not be run: {error}", script.display()))?;
    if output.status.success() {
        Ok(root.join(String::from_utf8_lossy(&output.stdout).trim_end()))
    } else {
        Err(format!("{} failed:\n{}", script.display(), String::from_utf8_lossy(&output.stderr)))
    }
}

/// Has the archive linked, from a copy that stays as it is, if it is one that this crate may know.
fn link(archive: &Path, out: &Path) {
    println!("cargo:rerun-if-changed={}", archive.display());
    let bytes = match std::fs::read(archive) {
        Ok(bytes) => bytes,
        Err(error) => stop(&format!("the archive {} could not be read: {error}", archive.display())),
    };
    if !bytes.starts_with(b"!<arch>\n") {
        stop(&format!("{} is no archive.", archive.display()));
    }
    if !bytes.windows(SINCE_0_2_0.len()).any(|it| it == SINCE_0_2_0) {
        stop(&format!(
            "the archive {} is older than 0.2.0, and this crate needs {}: build it again with bindings/archive.",
            archive.display(),
            env!("CARGO_PKG_VERSION")
        ));
    }
    if let Err(error) = std::fs::write(out.join("libexports.a"), bytes) {
        stop(&format!("the archive could not be copied to {}: {error}", out.display()));
    }
    println!("cargo:rustc-link-search=native={}", out.display());
    println!("cargo:rustc-link-lib=static=exports");
}

/// Says why there is no archive, and has a library linked that there is not, so that a program's linking fails with its name.
fn go_without(why: &str, out: &Path) {
    for line in why.lines() {
        println!("cargo:warning={line}");
    }
    println!("cargo:warning=So there is no archive of proved functions: this crate can be checked and documented, but no program linked with it.");
    println!(
        "cargo:warning=Install the Rattle toolchain, so that `rt` is in PATH, or set WERMAZUL_ARCHIVE to an archive that is already built."
    );
    println!("cargo:rustc-link-lib=dylib=wermazul_archive_is_missing");
    // A file that there is not has this program run again at the next build.
    println!("cargo:rerun-if-changed={}", out.join("no_archive").display());
}

fn main() {
    println!("cargo:rerun-if-changed=build.rs");
    println!("cargo:rerun-if-env-changed=WERMAZUL_ARCHIVE");
    let out = folder("OUT_DIR");
    let archive = match env::var_os("WERMAZUL_ARCHIVE").filter(|it| !it.is_empty()) {
        Some(path) => Ok(named(PathBuf::from(path))),
        None => made(),
    };
    match archive {
        Ok(archive) => link(&archive, &out),
        Err(why) => go_without(&why, &out),
    }
}
