//! The program under test: it reads a script and writes a trace.

use std::io::{self, Read, Write};
use std::process::{Command, Stdio};
use std::thread;

pub struct Program {
    path: String,
    arguments: Vec<String>,
}

impl Program {
    /// A path and arguments, parted by spaces.
    pub fn new(command: &str) -> Program {
        let mut words = command.split_whitespace().map(str::to_string);
        Program {
            path: words.next().unwrap_or_default(),
            arguments: words.collect(),
        }
    }

    /// The trace, with a last line of its own if the program failed.
    pub fn trace(&self, script: &[u8]) -> io::Result<Vec<u8>> {
        let mut child = Command::new(&self.path)
            .args(&self.arguments)
            .stdin(Stdio::piped())
            .stdout(Stdio::piped())
            .stderr(Stdio::null())
            .spawn()?;
        let mut input = child.stdin.take().expect("standard input is piped");
        let mut output = child.stdout.take().expect("standard output is piped");
        let mut trace = Vec::new();
        thread::scope(|scope| {
            // A program that ends early leaves the pipe broken; its trace tells.
            scope.spawn(move || {
                let _ = input.write_all(script);
            });
            output.read_to_end(&mut trace)
        })?;
        let status = child.wait()?;
        if !status.success() {
            trace.extend_from_slice(format!("the program ended with {status}\n").as_bytes());
        }
        Ok(trace)
    }
}
