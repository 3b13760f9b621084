//! The proved program as a process of its own.

use std::io::Write;
use std::process::{Command, Stdio};

/// The executable's text on this standard input.
pub fn text(executable: &str, input: &[u8]) -> Result<Vec<u8>, String> {
    let mut child = Command::new(executable)
        .stdin(Stdio::piped())
        .stdout(Stdio::piped())
        .spawn()
        .map_err(|error| format!("{executable} can't be run: {error}"))?;
    let mut stdin = child.stdin.take().expect("piped");
    let output = std::thread::scope(|scope| {
        // The program may stop reading early; then the pipe breaks, rightly.
        scope.spawn(move || {
            let _ = stdin.write_all(input);
        });
        child.wait_with_output()
    });
    let output = output.map_err(|error| format!("{executable} can't be read: {error}"))?;
    if !output.status.success() {
        return Err(format!("{executable} ends with {}", output.status));
    }
    Ok(output.stdout)
}
