//! What the tests read.

use std::fs;
use std::path::{Path, PathBuf};

/// Returns the path of a file or folder of the project.
pub fn of_project(path: &str) -> PathBuf {
    Path::new(env!("CARGO_MANIFEST_DIR")).join("..").join(path)
}

/// Returns all rows of runs and all examples, as the bytes that they stand in: any bytes are a
/// score.
pub fn inputs() -> Vec<Vec<u8>> {
    let folders = [of_project("examples"), of_project("crates/vectors/data")];
    let files = folders.iter().flat_map(|it| fs::read_dir(it).unwrap()).map(|it| it.unwrap().path());
    let mut found: Vec<Vec<u8>> = files.filter(|it| it.is_file()).map(|it| fs::read(it).unwrap()).collect();
    let lines: Vec<Vec<u8>> = found
        .iter()
        .flat_map(|it| it.split(|byte| *byte == b'\t'))
        .map(<[u8]>::to_vec)
        .collect();
    found.extend(lines);
    found
}
