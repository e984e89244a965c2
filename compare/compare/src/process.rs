//! Running a Rattle program.

use std::io::{self, Write};
use std::process::{Command, Output, Stdio};
use std::thread;

/// What the program does with these arguments and this as its standard input.
pub fn run(path: &str, arguments: &[&str], input: &[u8]) -> io::Result<Output> {
    let mut child = Command::new(path)
        .args(arguments)
        .stdin(Stdio::piped())
        .stdout(Stdio::piped())
        .stderr(Stdio::piped())
        .spawn()
        .map_err(|error| io::Error::other(format!("{path}: {error}")))?;
    let mut stdin = child.stdin.take().expect("it is piped");
    thread::scope(|scope| {
        // A thread of its own, since the program may print before it has read all; and it may end
        // before.
        scope.spawn(move || stdin.write_all(input));
        child.wait_with_output()
    })
}

/// How the program ended, where that is no success.
pub fn failure(output: &Output) -> Option<String> {
    let said = String::from_utf8_lossy(&output.stderr);
    let status = output.status;
    (!status.success()).then(|| format!("the program ended with {status}\n{said}"))
}
