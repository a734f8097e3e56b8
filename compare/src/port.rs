//! A program of the port, run as a child process and spoken to over pipes.

use std::io::{self, Read, Write};
use std::path::PathBuf;
use std::process::{Child, ChildStdin, ChildStdout, Command, ExitStatus, Stdio};
use std::sync::mpsc::{channel, Receiver};
use std::thread;
use std::time::Duration;

/// The build of the Rust that this is: without its features, or with those that it has by default.
pub const BUILD: &str = if cfg!(feature = "arch") {
    "default"
} else {
    "plain"
};

/// The requests that are written at once.
const CHUNK: u64 = 8192;

/// How long a reply is awaited before the program counts as silent.
const PATIENCE: Duration = Duration::from_secs(30);

/// A turn of a talk: what is said, and how many bytes are awaited before the next one.
pub struct Turn {
    pub said: Vec<u8>,
    pub awaited: usize,
}

/// What a program said in a talk, and the turn, if any, that it did not reply to.
pub struct Talk {
    pub heard: Vec<u8>,
    pub late: Option<usize>,
}

/// What is asked: the port's program of this name, or another file.
pub enum Program {
    Named(&'static str),
    File(PathBuf),
}

impl Program {
    /// A program of the port is started by bin/program, which builds it where it has to, and runs it
    /// under the kit's emulator where the processor is not x86-64.
    fn command(&self) -> io::Result<Command> {
        match self {
            Program::File(path) => Ok(Command::new(path)),
            Program::Named(name) => {
                let mut command = Command::new(repository()?.join("bin/program"));
                command.arg(name);
                Ok(command)
            }
        }
    }

    fn start(&self) -> io::Result<(Child, ChildStdin, ChildStdout)> {
        let mut child = self
            .command()?
            .stdin(Stdio::piped())
            .stdout(Stdio::piped())
            .spawn()?;
        let input = child.stdin.take().expect("its input is a pipe");
        let output = child.stdout.take().expect("its output is a pipe");
        Ok((child, input, output))
    }

    /// Asks `total` requests of 24 bytes, which `request` makes from their places, and hands each
    /// place with its answer of 8 bytes to `check`.
    pub fn ask(
        &self,
        total: u64,
        request: impl Fn(u64) -> [u8; 24] + Sync,
        mut check: impl FnMut(u64, u64),
    ) -> io::Result<()> {
        let (mut child, input, mut output) = self.start()?;
        thread::scope(|scope| {
            let request = &request;
            // A program that ends early is seen by its answers, so an error here says nothing more.
            scope.spawn(move || write_requests(input, total, request).ok());
            read_answers(&mut output, total, &mut check)
        })?;
        ended_well(&mut child, &mut output)
    }

    /// Writes all of a stream and answers all that the program wrote.
    pub fn exchange(&self, stream: &[u8]) -> io::Result<Vec<u8>> {
        let (mut child, mut input, mut output) = self.start()?;
        let mut answers = Vec::new();
        thread::scope(|scope| {
            scope.spawn(move || input.write_all(stream).ok());
            output.read_to_end(&mut answers)
        })?;
        ended_well(&mut child, &mut output)?;
        Ok(answers)
    }

    /// Says one turn after the other, each when all that was awaited has come. A program that is silent too
    /// long is ended.
    pub fn converse(&self, turns: &[Turn]) -> io::Result<Talk> {
        let (mut child, mut input, output) = self.start()?;
        let pieces = listen(output);
        let (mut heard, mut awaited) = (Vec::new(), 0);
        for (place, turn) in turns.iter().enumerate() {
            // A program that ended early is seen by its silence.
            input.write_all(&turn.said).ok();
            awaited += turn.awaited;
            while heard.len() < awaited {
                let Ok(piece) = pieces.recv_timeout(PATIENCE) else {
                    child.kill()?;
                    child.wait()?;
                    let late = Some(place);
                    return Ok(Talk { heard, late });
                };
                heard.extend(piece);
            }
        }
        drop(input);
        heard.extend(pieces.iter().flatten());
        well(child.wait()?)?;
        Ok(Talk { heard, late: None })
    }
}

/// What comes from a program, piece by piece, until it ends.
fn listen(mut output: ChildStdout) -> Receiver<Vec<u8>> {
    let (sender, pieces) = channel();
    thread::spawn(move || {
        let mut bytes = [0; 4096];
        while let Ok(length @ 1..) = output.read(&mut bytes) {
            if sender.send(bytes[..length].to_vec()).is_err() {
                break;
            }
        }
    });
    pieces
}

/// An error that says what is wrong.
pub fn failure(what: impl Into<String>) -> io::Error {
    io::Error::new(io::ErrorKind::Other, what.into())
}

/// The folder above the current one, or itself, that has crates.txt.
pub fn repository() -> io::Result<PathBuf> {
    let here = std::env::current_dir()?;
    here.ancestors()
        .find(|folder| folder.join("crates.txt").is_file())
        .map(PathBuf::from)
        .ok_or_else(|| failure("no crates.txt in this folder or above it"))
}

fn write_requests(
    mut input: ChildStdin,
    total: u64,
    request: impl Fn(u64) -> [u8; 24],
) -> io::Result<()> {
    let mut bytes = Vec::with_capacity(24 * CHUNK as usize);
    let mut done = 0;
    while done < total {
        let end = total.min(done + CHUNK);
        bytes.clear();
        for place in done..end {
            bytes.extend_from_slice(&request(place));
        }
        input.write_all(&bytes)?;
        done = end;
    }
    Ok(())
}

fn read_answers(
    output: &mut ChildStdout,
    total: u64,
    check: &mut impl FnMut(u64, u64),
) -> io::Result<()> {
    let mut bytes = vec![0; 8 * CHUNK as usize];
    let mut done = 0;
    while done < total {
        let count = CHUNK.min(total - done);
        let part = &mut bytes[..8 * count as usize];
        output
            .read_exact(part)
            .map_err(|_| failure(format!("the program ended near answer {done}")))?;
        for (place, answer) in (done..).zip(part.chunks_exact(8)) {
            check(place, u64::from_le_bytes(answer.try_into().unwrap()));
        }
        done += count;
    }
    Ok(())
}

/// Nothing more comes, and the program ends with status 0.
fn ended_well(child: &mut Child, output: &mut ChildStdout) -> io::Result<()> {
    let mut more = Vec::new();
    output.read_to_end(&mut more)?;
    let status = child.wait()?;
    if !more.is_empty() {
        return Err(failure("the program wrote more than was asked"));
    }
    well(status)
}

fn well(status: ExitStatus) -> io::Result<()> {
    match status.success() {
        true => Ok(()),
        false => Err(failure(format!("the program ended: {status}"))),
    }
}
