//! Asking a binary: a list on its standard input, its standard output back.

use std::io::{self, Read, Write};
use std::path::Path;
use std::process::{Child, ChildStdin, ChildStdout, Command, Stdio};
use std::sync::mpsc;
use std::thread;
use std::time::Duration;

/// How long a binary may take for one list.
const PATIENCE: Duration = Duration::from_secs(60);
/// Between two pieces of a list that is handed over piece by piece.
const PAUSE: Duration = Duration::from_millis(1);
/// No good answer is as long as this.
const MOST_OUTPUT: u64 = 1 << 22;

/// The output of a binary for a list that is handed over in so many pieces, or what went wrong.
pub fn ask(binary: &Path, list: &[u8], pieces: usize) -> Result<Vec<u8>, String> {
    let mut child = Command::new(binary)
        .stdin(Stdio::piped())
        .stdout(Stdio::piped())
        .spawn()
        .map_err(|error| format!("{} does not start: {error}", binary.display()))?;
    let stdin = child.stdin.take().expect("standard input is piped");
    let stdout = child.stdout.take().expect("standard output is piped");
    let output = thread::scope(|scope| {
        scope.spawn(|| hand_over(stdin, list, pieces));
        let (sender, receiver) = mpsc::channel();
        scope.spawn(move || sender.send(read_all(stdout)));
        let output = receiver.recv_timeout(PATIENCE);
        if output.is_err() {
            // It may have ended by itself just now.
            let _ = child.kill();
        }
        output
    });
    let end = check_end(&mut child);
    let output = output.map_err(|_| format!("no answer within {} s", PATIENCE.as_secs()))?;
    end?;
    output.map_err(|error| format!("its output cannot be read: {error}"))
}

/// Writes the list. A binary need not read all of it, so a closed pipe is no fault.
fn hand_over(mut stdin: ChildStdin, list: &[u8], pieces: usize) {
    for (number, piece) in list.chunks(list.len().div_ceil(pieces).max(1)).enumerate() {
        if number > 0 {
            thread::sleep(PAUSE);
        }
        if stdin.write_all(piece).is_err() {
            return;
        }
    }
}

fn read_all(stdout: ChildStdout) -> io::Result<Vec<u8>> {
    let mut output = Vec::new();
    stdout.take(MOST_OUTPUT).read_to_end(&mut output)?;
    Ok(output)
}

/// Document 01 says nothing of the exit code, but a binary that is ended by a signal has failed.
fn check_end(child: &mut Child) -> Result<(), String> {
    let status = child.wait().map_err(|error| error.to_string())?;
    match status.code() {
        Some(_) => Ok(()),
        None => Err(format!("ended by a signal: {status}")),
    }
}
