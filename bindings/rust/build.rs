//! Finds the proved static library and links it.
//!
//! SROVIEMAT_ARCHIVE names an archive that was built before (`tools/build-library` writes
//! target/staticlib/libexports.a). Without it that tool, which the repository has, builds the archive with the toolchain.
//! An archive whose doors have another number than this crate is written for is refused here.
//! With `--cfg docs` among the RUSTFLAGS no archive is looked for: enough for `cargo check` and `cargo doc`.
use std::{
    env, fs, io,
    path::{Path, PathBuf},
    process::{exit, Command},
};

#[path = "src/version.rs"]
mod version;
use version::VERSION;

const VARIABLE: &str = "SROVIEMAT_ARCHIVE";

/// The archive's name below OUT_DIR, whatever it is called where it comes from.
const NAME: &str = "sroviemat_exports";

/// What the crate calls.
const DOORS: [&str; 6] = ["srv_read", "srv_measure", "srv_reread", "srv_audit", "srv_version", "srv_class"];

/// Prints the number of the interface that an archive's doors have.
const ASKING: &str =
    "extern \"C\" { fn srv_version() -> u32; } fn main() { println!(\"{}\", unsafe { srv_version() }) }";

fn main() {
    println!("cargo:rerun-if-changed=build.rs");
    println!("cargo:rerun-if-changed=src/version.rs");
    println!("cargo:rerun-if-env-changed={VARIABLE}");
    println!("cargo:rerun-if-env-changed=RUSTFLAGS");
    if env::var_os("CARGO_CFG_DOCS").is_some() {
        println!(
            "cargo:warning=--cfg docs: the proved library is left out, so this can be checked and documented, not run"
        );
        return;
    }
    if let Err(message) = right_target().and_then(|()| link()) {
        eprintln!("sroviemat: {message}");
        exit(1)
    }
}

/// The library is machine code.
fn right_target() -> Result<(), String> {
    let system = variable("CARGO_CFG_TARGET_OS");
    if system == "linux" && (machine() == "x86_64" || machine() == "aarch64") {
        return Ok(());
    }
    Err(format!("the proved library runs on Linux alone, on x86-64 and Arm, not on {}", text("TARGET")))
}

fn link() -> Result<(), String> {
    let archive = match env::var_os(VARIABLE) {
        Some(path) if !path.is_empty() => named(PathBuf::from(path)),
        _ => built(),
    }?;
    println!("cargo:rerun-if-changed={}", archive.display());
    let bytes = fs::read(&archive).map_err(|error| format!("{}: {error}", archive.display()))?;
    let lacks = |door: &&str| !bytes.windows(door.len()).any(|part| part == door.as_bytes());
    if let Some(door) = DOORS.iter().copied().find(lacks) {
        return Err(format!("{} has no {door}: it is not the library that this crate is for", archive.display()));
    }
    let out = PathBuf::from(variable("OUT_DIR"));
    write(&out.join(format!("lib{NAME}.a")), &bytes)?;
    let found = version_in(&out)
        .map_err(|error| format!("{} cannot be asked for its interface: {error}", archive.display()))?;
    if found != VERSION {
        return Err(format!(
            "{} has interface {found}, and this crate needs {VERSION}: build it anew with `tools/build-library`",
            archive.display()
        ));
    }
    println!("cargo:rustc-link-search=native={}", out.display());
    println!("cargo:rustc-link-lib=static={NAME}");
    Ok(())
}

/// What cargo tells a build script.
fn variable(name: &str) -> std::ffi::OsString {
    env::var_os(name).unwrap_or_else(|| panic!("cargo sets {name}"))
}

/// The machine that is built for.
fn machine() -> String {
    text("CARGO_CFG_TARGET_ARCH")
}

fn text(name: &str) -> String {
    variable(name).to_string_lossy().into_owned()
}

fn write(file: &Path, bytes: &[u8]) -> Result<(), String> {
    fs::write(file, bytes).map_err(|error| format!("{}: {error}", file.display()))
}

/// The number of the interface that the archive in a folder has, asked by a program that is made and run here.
fn version_in(folder: &Path) -> Result<u32, String> {
    let (source, program) = (folder.join("version.rs"), folder.join("version"));
    write(&source, ASKING.as_bytes())?;
    let mut rustc = Command::new(variable("RUSTC"));
    rustc
        .arg(&source)
        .arg("--target")
        .arg(variable("TARGET"))
        .arg("-o")
        .arg(&program)
        .arg("-L")
        .arg(folder)
        .arg("-l")
        .arg(format!("static={NAME}"));
    if let Some(linker) = env::var_os("RUSTC_LINKER") {
        rustc.arg("-C").arg(format!("linker={}", PathBuf::from(linker).display()));
    }
    said(&mut rustc)?;
    let number = said(&mut Command::new(&program))?;
    number.trim().parse().map_err(|_| format!("srv_version answers {number:?}"))
}

/// What a command prints.
fn said(command: &mut Command) -> Result<String, String> {
    let run = command.output().map_err(|error| format!("{:?}: {error}", command.get_program()))?;
    if run.status.success() {
        Ok(String::from_utf8_lossy(&run.stdout).into_owned())
    } else {
        Err(format!("{:?} failed:\n{}", command.get_program(), String::from_utf8_lossy(&run.stderr)))
    }
}

/// The archive that the variable names.
fn named(path: PathBuf) -> Result<PathBuf, String> {
    if path.is_absolute() && path.is_file() {
        Ok(path)
    } else {
        Err(format!("{VARIABLE} is {}, which is not the absolute path of a file", path.display()))
    }
}

/// The archive that is built of the repository that this crate lies in.
fn built() -> Result<PathBuf, String> {
    let here = PathBuf::from(variable("CARGO_MANIFEST_DIR"));
    let root = match here.ancestors().nth(2) {
        Some(root) if root.join("crates/exports").is_dir() => root,
        _ => return Err(neither("this crate does not lie in its repository")),
    };
    for source in ["crates.txt", "crates"] {
        println!("cargo:rerun-if-changed={}", root.join(source).display());
    }
    match Command::new("rt").arg("version").output() {
        Err(error) if error.kind() == io::ErrorKind::NotFound => {
            return Err(neither("the toolchain, `rt`, is not on the path"));
        }
        Err(error) => return Err(format!("`rt` cannot be run: {error}")),
        Ok(_) => {}
    }
    match Command::new(root.join("tools/build-library")).arg("exports").current_dir(root).output() {
        Ok(run) if run.status.success() => Ok(root.join("target/staticlib/libexports.a")),
        Ok(run) => Err(format!(
            "`tools/build-library exports` failed in {}:\n{}{}",
            root.display(),
            String::from_utf8_lossy(&run.stdout),
            String::from_utf8_lossy(&run.stderr)
        )),
        Err(error) => Err(format!("`tools/build-library` cannot be run: {error}")),
    }
}

fn neither(why: &str) -> String {
    format!(
        "the proved library is missing: {why}, and {VARIABLE} is not set.\n\
         Put `rt` on the path, or set {VARIABLE} to the absolute path of a libexports.a \
         that `tools/build-library` has built.\n\
         For `cargo check` and `cargo doc` alone, RUSTFLAGS='--cfg docs' does without it."
    )
}
