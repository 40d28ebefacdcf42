//! Processes that are given an input and have to end within a time.

use std::io::{self, ErrorKind, Read, Write};
use std::process::{Child, ChildStdin, Command, ExitStatus, Stdio};
use std::thread::{self, sleep};
use std::time::{Duration, Instant};

/// A process that takes longer is killed, unless another limit is given.
const LIMIT: Duration = Duration::from_secs(30);

/// Between two looks whether a process has ended.
const STEP: Duration = Duration::from_micros(100);

/// Between two pieces of an input.
const PAUSE: Duration = Duration::from_micros(200);

/// The most bytes that are read of what a process writes.
const MOST_WRITTEN: u64 = 1 << 20;

/// How a process ended, and what it wrote.
#[derive(Debug)]
pub struct Ended {
    /// None if it was killed for the time it took.
    pub status: Option<ExitStatus>,
    pub output: Vec<u8>,
    pub errors: Vec<u8>,
}

impl Ended {
    /// Whether it ended by itself, with this status.
    pub fn with(&self, code: i32) -> bool {
        self.status
            .is_some_and(|status| status.code() == Some(code))
    }
}

/// Runs a command with the input in a pipe.
pub fn run(command: &mut Command, input: &[u8]) -> io::Result<Ended> {
    run_in_pieces(command, &[input])
}

/// As `run`, where the pieces of the input come one after another, with pauses.
pub fn run_in_pieces(command: &mut Command, pieces: &[&[u8]]) -> io::Result<Ended> {
    let mut child = start(command, Stdio::piped(), Stdio::piped())?;
    feed(child.stdin.take(), pieces)?;
    end(child, LIMIT)
}

/// As `run`, where the input comes from elsewhere.
pub fn run_from(command: &mut Command, input: impl Into<Stdio>) -> io::Result<Ended> {
    end(start(command, input.into(), Stdio::piped())?, LIMIT)
}

/// As `run` with no input, for what may take longer.
pub fn run_within(command: &mut Command, limit: Duration) -> io::Result<Ended> {
    end(start(command, Stdio::null(), Stdio::piped())?, limit)
}

/// As `run`, where the output goes elsewhere.
pub fn run_into(
    command: &mut Command,
    input: &[u8],
    output: impl Into<Stdio>,
) -> io::Result<Ended> {
    let mut child = start(command, Stdio::piped(), output.into())?;
    feed(child.stdin.take(), &[input])?;
    end(child, LIMIT)
}

/// As `run`, where nobody reads the output.
pub fn run_unread(command: &mut Command, input: &[u8]) -> io::Result<Ended> {
    let mut reader = start(&mut Command::new("true"), Stdio::piped(), Stdio::null())?;
    let pipe = reader.stdin.take();
    reader.wait()?;
    run_into(command, input, pipe.ok_or(ErrorKind::NotFound)?)
}

fn start(command: &mut Command, input: Stdio, output: Stdio) -> io::Result<Child> {
    let command = command.stdin(input).stdout(output);
    command.stderr(Stdio::piped()).spawn()
}

/// Writes the pieces and closes the pipe. A process need not read its whole input.
fn feed(pipe: Option<ChildStdin>, pieces: &[&[u8]]) -> io::Result<()> {
    let Some(mut pipe) = pipe else {
        return Ok(());
    };
    for (place, piece) in pieces.iter().enumerate() {
        if place > 0 {
            sleep(PAUSE);
        }
        match pipe.write_all(piece) {
            Err(error) if error.kind() == ErrorKind::BrokenPipe => break,
            written => written?,
        }
    }
    Ok(())
}

/// Waits for the end, and meanwhile reads what is written.
pub fn end(mut child: Child, limit: Duration) -> io::Result<Ended> {
    let (output, errors) = (child.stdout.take(), child.stderr.take());
    thread::scope(|scope| {
        let waiting = scope.spawn(|| wait(&mut child, limit));
        let (output, errors) = (written(output), written(errors));
        let status = waiting.join().expect("waiting does not panic")?;
        Ok(Ended {
            status,
            output: output?,
            errors: errors?,
        })
    })
}

fn wait(child: &mut Child, limit: Duration) -> io::Result<Option<ExitStatus>> {
    let start = Instant::now();
    while start.elapsed() < limit {
        if let Some(status) = child.try_wait()? {
            return Ok(Some(status));
        }
        sleep(STEP);
    }
    child.kill()?;
    child.wait()?;
    Ok(None)
}

/// The bytes of a pipe, up to more than any process has to write.
fn written(pipe: Option<impl Read>) -> io::Result<Vec<u8>> {
    let mut bytes = Vec::new();
    if let Some(pipe) = pipe {
        pipe.take(MOST_WRITTEN).read_to_end(&mut bytes)?;
    }
    Ok(bytes)
}
