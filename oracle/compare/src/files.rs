//! The machine's Python files.
use std::{
    fs,
    path::{Path, PathBuf},
};

/// Folders of the system that hold no files of their own.
const NOT_FILES: [&str; 3] = ["/proc", "/sys", "/dev"];

/// The .py files in a folder and below it, in order; links are not followed.
pub fn python_files(folder: &Path) -> Vec<PathBuf> {
    let mut files = Vec::new();
    gather(folder, &mut files);
    files.sort();
    files
}

fn gather(folder: &Path, files: &mut Vec<PathBuf>) {
    if NOT_FILES.iter().any(|not| folder == Path::new(not)) {
        return;
    }
    // A folder that may not be read has nothing to add.
    for entry in fs::read_dir(folder).into_iter().flatten().flatten() {
        let path = entry.path();
        match entry.file_type() {
            Ok(kind) if kind.is_dir() => gather(&path, files),
            Ok(kind) if kind.is_file() && path.extension().map_or(false, |end| end == "py") => files.push(path),
            _ => {}
        }
    }
}
