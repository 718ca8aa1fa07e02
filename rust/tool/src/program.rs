//! Running a program: bytes on its standard input, lines from its standard output.

use std::io::{Read, Write};
use std::process::{Child, Command, ExitStatus, Stdio};
use std::thread::JoinHandle;
use std::time::{Duration, Instant};

pub struct Program {
    pub path: String,
    /// A run that takes longer is ended.
    pub timeout: Duration,
}

impl Program {
    /// The program's lines. One that doesn't end well, takes too long or ends its output without LF
    /// gives a last line in brackets that says so.
    pub fn ask(&self, bytes: &[u8]) -> Result<Vec<String>, String> {
        let mut child = Command::new(&self.path)
            .stdin(Stdio::piped())
            .stdout(Stdio::piped())
            .stderr(Stdio::null())
            .spawn()
            .map_err(|error| format!("{}: {error}", self.path))?;
        let writer = write_input(&mut child, bytes);
        let reader = read_output(&mut child);
        let status = wait(&mut child, self.timeout);
        let status = status.map_err(|error| format!("{}: {error}", self.path))?;
        let _ = writer.join();
        let output = reader.join().expect("reading doesn't panic");
        let text = String::from_utf8_lossy(&output);
        let mut lines: Vec<String> = text.lines().map(str::to_string).collect();
        if !text.is_empty() && !text.ends_with('\n') {
            lines.push("(no LF at the end)".to_string());
        }
        match status {
            None => lines.push("(the program took too long)".to_string()),
            Some(status) if !status.success() => lines.push(format!("(ended by {status})")),
            Some(_) => {}
        }
        Ok(lines)
    }
}

/// The exit status; none if the time is over, and then the program is ended.
pub fn wait(child: &mut Child, timeout: Duration) -> std::io::Result<Option<ExitStatus>> {
    let started = Instant::now();
    let mut pause = Duration::from_micros(200);
    loop {
        if let Some(status) = child.try_wait()? {
            return Ok(Some(status));
        }
        if started.elapsed() > timeout {
            child.kill()?;
            child.wait()?;
            return Ok(None);
        }
        std::thread::sleep(pause);
        pause = (pause * 2).min(Duration::from_millis(20));
    }
}

fn write_input(child: &mut Child, bytes: &[u8]) -> JoinHandle<()> {
    let mut stdin = child.stdin.take().expect("piped");
    let input = bytes.to_vec();
    std::thread::spawn(move || {
        // A program may stop reading early.
        let _ = stdin.write_all(&input);
    })
}

fn read_output(child: &mut Child) -> JoinHandle<Vec<u8>> {
    let mut stdout = child.stdout.take().expect("piped");
    std::thread::spawn(move || {
        let mut output = Vec::new();
        let _ = stdout.read_to_end(&mut output);
        output
    })
}
