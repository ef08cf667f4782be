//! Runs our compiled program on lines of text.
use std::io::Write;
use std::path::PathBuf;
use std::process::{Command, Stdio};
use std::thread;

/// The repository's root: the folder above this Cargo project.
pub fn root() -> PathBuf {
    let project = std::env::var("CARGO_MANIFEST_DIR").unwrap_or(env!("CARGO_MANIFEST_DIR").to_string());
    PathBuf::from(project).join("..")
}

/// Where rt puts a program that it has proved.
pub fn path(name: &str) -> Result<PathBuf, String> {
    let path = root().join("crates").join(name).join("out").join(name);
    if !path.is_file() {
        return Err(format!(
            "there is no crates/{name}/out/{name}: sh differential/program {name} proves and builds it"
        ));
    }
    Ok(path)
}

/// Everything that the program writes when it is given these bytes.
pub fn output(name: &str, input: Vec<u8>) -> Result<Vec<u8>, String> {
    let mut child = Command::new(path(name)?)
        .current_dir(root())
        .stdin(Stdio::piped())
        .stdout(Stdio::piped())
        .spawn()
        .map_err(|error| format!("{name} can't be started: {error}"))?;
    let mut stdin = child.stdin.take().unwrap();
    // The program answers while it still reads, so the two pipes are served at the same time.
    let feeder = thread::spawn(move || stdin.write_all(&input));
    let output = child.wait_with_output().map_err(|error| format!("{name}: {error}"))?;
    let fed = feeder.join().unwrap();
    if !output.status.success() {
        return Err(format!("{name} ended with {}", output.status));
    }
    fed.map_err(|error| format!("{name} didn't read all: {error}"))?;
    Ok(output.stdout)
}
