//! The build script: which archives and targets it refuses, whichever way they come in, and what it does without one.
use sroviemat::ffi::VERSION;
use std::{
    env, fs,
    path::{Path, PathBuf},
    process::Command,
};

/// Runs a command to its end; what it printed to standard error, if it failed.
fn failure(command: &mut Command) -> Option<String> {
    let run = command.output().unwrap_or_else(|error| panic!("{command:?}: {error}"));
    (!run.status.success()).then(|| String::from_utf8_lossy(&run.stderr).into_owned())
}

/// A folder of a test's own.
fn folder(name: &str) -> PathBuf {
    let folder = Path::new(env!("CARGO_TARGET_TMPDIR")).join(name);
    fs::create_dir_all(&folder).unwrap();
    folder
}

/// An archive with the doors' names, whose number is the one given.
fn archive(folder: &Path, number: u32) -> PathBuf {
    let [source, object, archive] = ["c", "o", "a"].map(|end| folder.join(format!("interface{number}.{end}")));
    let doors = ["srv_read", "srv_measure", "srv_reread", "srv_audit", "srv_class"];
    let empty: String = doors.iter().map(|door| format!("void {door}(void) {{}}\n")).collect();
    fs::write(&source, format!("{empty}unsigned srv_version(void) {{ return {number}; }}\n")).unwrap();
    assert_eq!(failure(Command::new("cc").arg("-c").arg(&source).arg("-o").arg(&object)), None);
    assert_eq!(failure(Command::new("ar").arg("rcs").arg(&archive).arg(&object)), None);
    archive
}

/// Cargo on the crate in a folder, away from where it is built for these tests.
fn cargo(manifest: &Path, work: &str, folder: &Path) -> Command {
    let mut cargo = Command::new(env!("CARGO"));
    cargo.current_dir(manifest).args([work, "--offline", "--quiet", "--target-dir"]).arg(folder.join("target"));
    cargo.env_remove("SROVIEMAT_ARCHIVE").env_remove("RUSTFLAGS");
    cargo
}

fn here() -> &'static Path {
    Path::new(env!("CARGO_MANIFEST_DIR"))
}

/// What is said of an archive with another number.
fn assert_refused(said: Option<String>, archive: &Path, number: u32) {
    let said = said.expect("the build fails");
    let words = format!("{} has interface {number}, and this crate needs {VERSION}", archive.display());
    assert!(said.contains(&words), "{said}");
}

#[test]
fn an_older_and_a_newer_archive_are_refused() {
    let folder = folder("named");
    let build = |archive: &Path| failure(cargo(here(), "build", &folder).env("SROVIEMAT_ARCHIVE", archive));
    for number in [VERSION - 1, VERSION + 1] {
        let archive = archive(&folder, number);
        assert_refused(build(&archive), &archive, number);
    }
    assert_eq!(build(&archive(&folder, VERSION)), None);
    let said = build(&folder.join("none.a")).unwrap();
    assert!(said.contains("which is not the absolute path of a file"), "{said}");
    let said = build(&here().join("Cargo.toml")).unwrap();
    assert!(said.contains("Cargo.toml has no srv_read: it is not the library"), "{said}");
}

/// The same where the archive is built here: scripts in the place of the toolchain and of the tool that calls it, in a
/// repository with this crate alone. It lies apart from this one, which names its crates once.
#[test]
fn an_older_and_a_newer_toolchain_are_refused() {
    let folder = env::temp_dir().join(format!("sroviemat-built-{}", std::process::id()));
    let crate_here = folder.join("bindings/rust");
    let tools = folder.join("tools");
    for part in [&crate_here.join("src"), &folder.join("crates/exports"), &folder.join("target/staticlib"), &tools] {
        fs::create_dir_all(part).unwrap();
    }
    fs::write(folder.join("crates.txt"), "").unwrap();
    for file in ["Cargo.toml", "build.rs"] {
        fs::copy(here().join(file), crate_here.join(file)).unwrap();
    }
    for file in fs::read_dir(here().join("src")).unwrap() {
        let file = file.unwrap();
        fs::copy(file.path(), crate_here.join("src").join(file.file_name())).unwrap();
    }
    // A workspace of its own, wherever the folder lies.
    let manifest = crate_here.join("Cargo.toml");
    fs::write(&manifest, fs::read_to_string(&manifest).unwrap() + "\n[workspace]\n").unwrap();
    let path = format!("{}:{}", tools.display(), env::var("PATH").unwrap());
    let archive_built = folder.join("target/staticlib/libexports.a");
    for number in [VERSION - 1, VERSION + 1, VERSION] {
        let made = archive(&folder, number);
        let copied = format!("cp {} target/staticlib/libexports.a", made.display());
        for (name, words, work) in [("rt", "version", "true"), ("build-library", "exports", copied.as_str())] {
            let script = tools.join(name);
            fs::write(&script, format!("#!/bin/sh\n[ \"$*\" = '{words}' ] && {work}\n")).unwrap();
            assert_eq!(failure(Command::new("chmod").arg("+x").arg(&script)), None);
        }
        // What the script builds is asked for where a source is newer.
        fs::write(folder.join("crates.txt"), number.to_string()).unwrap();
        let said = failure(cargo(&crate_here, "build", &folder).env("PATH", &path));
        match number {
            VERSION => assert_eq!(said, None),
            _ => assert_refused(said, &archive_built, number),
        }
    }
    fs::remove_dir_all(&folder).unwrap();
}

/// Nothing is linked with `--cfg docs`: no archive is needed, and a wrong one is not looked at.
#[test]
fn checked_and_documented_without_an_archive() {
    let folder = folder("docs");
    for work in ["check", "doc"] {
        let mut cargo = cargo(here(), work, &folder);
        cargo.env("RUSTFLAGS", "--cfg docs").env("RUSTDOCFLAGS", "-D warnings").env("SROVIEMAT_ARCHIVE", "none.a");
        assert_eq!(failure(&mut cargo), None, "{work}");
    }
}

#[test]
fn other_targets_are_refused_in_a_sentence() {
    let folder = folder("targets");
    for target in ["aarch64-apple-darwin", "x86_64-pc-windows-gnu", "wasm32-unknown-unknown"] {
        let said = failure(cargo(here(), "check", &folder).args(["--target", target])).expect("the build fails");
        let words = format!("sroviemat: the proved library runs on Linux alone, on x86-64 and Arm, not on {target}");
        assert!(said.contains(&words), "{said}");
    }
}
