//! Program rig, run as a process: it alone gives the index and the place of a refused file.

use std::io::{Error, Write};
use std::path::{Path, PathBuf};
use std::process::{Command, Stdio};

pub fn path() -> PathBuf {
    Path::new(env!("CARGO_MANIFEST_DIR")).join("../target/bin/rig")
}

/// What the program prints for a file. It must end with status 0.
pub fn play(file: &[u8]) -> Result<Vec<u8>, Error> {
    let mut child = Command::new(path()).stdin(Stdio::piped()).stdout(Stdio::piped()).spawn()?;
    if let Some(mut stdin) = child.stdin.take() {
        // It reads no more than 65,536 bytes, so that writing a longer file may fail.
        let _ = stdin.write_all(file);
    }
    let output = child.wait_with_output()?;
    if !output.status.success() {
        return Err(Error::other(format!("rig ended with {}", output.status)));
    }
    Ok(output.stdout)
}
