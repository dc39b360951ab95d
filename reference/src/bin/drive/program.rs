//! A run of the program in a folder: its input written through a pipe, its output read by a thread of its own.

use std::io::{ErrorKind, Read, Write};
use std::path::Path;
use std::process::{Child, ChildStdin, Command, Stdio};
use std::sync::mpsc::{channel, Receiver, RecvTimeoutError};
use std::thread;
use std::time::Duration;
use std::{fs, io};

/// How long the program may print nothing of what it is still to print, or not end. Far more than it needs on a busy machine.
const PATIENCE: Duration = Duration::from_secs(20);

/// The program while it runs, and what it has printed.
pub struct Program {
    child: Child,
    input: Option<ChildStdin>,
    output: Receiver<Vec<u8>>,
    pub printed: Vec<u8>,
}

impl Program {
    pub fn start(hall: &Path, folder: &Path) -> io::Result<Program> {
        let mut child = Command::new(hall)
            .current_dir(folder)
            .stdin(Stdio::piped())
            .stdout(Stdio::piped())
            .spawn()?;
        let input = child.stdin.take();
        let mut stdout = child.stdout.take().expect("a pipe");
        let (sender, output) = channel();
        thread::spawn(move || {
            let mut buffer = [0; 65_536];
            while let Ok(count @ 1..) = stdout.read(&mut buffer) {
                if sender.send(buffer[..count].to_vec()).is_err() {
                    return;
                }
            }
        });
        Ok(Program {
            child,
            input,
            output,
            printed: Vec::new(),
        })
    }

    /// The pipe to the program, which is closed when it is dropped.
    pub fn take_input(&mut self) -> ChildStdin {
        self.input.take().expect("an open pipe")
    }

    /// Waits until the program has printed so many bytes; an error if it ends before, or takes too long.
    pub fn wait_for(&mut self, length: usize) -> Result<(), String> {
        while self.printed.len() < length {
            match self.output.recv_timeout(PATIENCE) {
                Ok(bytes) => self.printed.extend(bytes),
                Err(RecvTimeoutError::Timeout) => return Err("it does not answer".into()),
                Err(RecvTimeoutError::Disconnected) => return Err("it has ended".into()),
            }
        }
        Ok(())
    }

    /// Waits until the program has ended; an error if it takes too long or does not end well.
    pub fn wait_for_end(&mut self) -> Result<(), String> {
        loop {
            match self.output.recv_timeout(PATIENCE) {
                Ok(bytes) => self.printed.extend(bytes),
                Err(RecvTimeoutError::Timeout) => return Err("it does not end".into()),
                Err(RecvTimeoutError::Disconnected) => break,
            }
        }
        match self.child.wait() {
            Ok(status) if status.success() => Ok(()),
            Ok(status) => Err(format!("it ended with {status}")),
            Err(error) => Err(error.to_string()),
        }
    }

    /// The most memory that the program has had, in KiB.
    pub fn peak_memory(&self) -> Option<u64> {
        let status = fs::read_to_string(format!("/proc/{}/status", self.child.id())).ok()?;
        let line = status
            .lines()
            .find_map(|line| line.strip_prefix("VmHWM:"))?;
        line.trim().strip_suffix(" kB")?.parse().ok()
    }

    /// Ends the program where it has not ended, so that nothing waits for it.
    pub fn kill(&mut self) {
        let _ = self.child.kill();
        let _ = self.child.wait();
    }
}

impl Drop for Program {
    fn drop(&mut self) {
        self.kill();
    }
}

/// Writes bytes to the program. One that has ended, as on a refused film file, takes none, and that is no fault.
pub fn write(input: &mut ChildStdin, bytes: &[u8]) -> Result<(), String> {
    match input.write_all(bytes) {
        Err(error) if error.kind() != ErrorKind::BrokenPipe => Err(error.to_string()),
        _ => Ok(()),
    }
}
