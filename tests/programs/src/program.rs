//! Runs the program under test on one input.

use std::env;
use std::ffi::OsStr;
use std::fs::{self, File};
use std::io::{self, Read, Write};
use std::os::unix::ffi::OsStrExt;
use std::path::{Path, PathBuf};
use std::process::{self, Child, Command, ExitStatus, Stdio};
use std::sync::mpsc;
use std::thread;
use std::time::Duration;

use cases::Random;

/// A program that is not done after so long is taken to hang.
const PATIENCE: Duration = Duration::from_secs(60);

/// So long the rest of an input is held back now and then: a short one would else be there as a whole before the program reads.
const PAUSE: Duration = Duration::from_millis(5);

pub struct Ran {
    pub stdout: Vec<u8>,
    pub stderr: Vec<u8>,
    pub status: ExitStatus,
}

/// How the input reaches the program.
#[derive(Clone, Copy)]
pub enum Arrival {
    File,
    /// A pipe that is written in pieces of at most so many bytes, which the seed gives.
    Pipe {
        most: usize,
        seed: u64,
    },
}

impl Arrival {
    pub fn random(random: &Random) -> Arrival {
        let seed = random.bits();
        match random.pick(&[0, 300, 4096, 1 << 20]) {
            0 => Arrival::File,
            most => Arrival::Pipe { most, seed },
        }
    }
}

/// What is run with some arguments and on an input: the program, or what a test puts in its place.
pub type Program = Box<dyn Fn(&[Vec<u8>], &[u8], Arrival) -> io::Result<Ran>>;

/// The program of this path, for the test of this name.
pub fn at(path: &str, test: &str) -> Program {
    let path = PathBuf::from(path);
    let file = Scratch(env::temp_dir().join(format!("{test}-{}.input", process::id())));
    Box::new(move |arguments, input, arrival| {
        let mut command = Command::new(&path);
        command.args(arguments.iter().map(|argument| OsStr::from_bytes(argument)));
        run(command, input, arrival, &file.0)
    })
}

/// In place of the path of a program: the library alone is tested.
const LIBRARY_ALONE: &str = "--library";

/// The same, but none where the library alone is tested.
pub fn unless_alone(path: &str, test: &str) -> Option<Program> {
    (path != LIBRARY_ALONE).then(|| at(path, test))
}

/// Where an input is put that arrives as a file.
struct Scratch(PathBuf);

impl Drop for Scratch {
    fn drop(&mut self) {
        // It is there only if an input arrived as a file.
        let _ = fs::remove_file(&self.0);
    }
}

fn run(mut command: Command, input: &[u8], arrival: Arrival, file: &Path) -> io::Result<Ran> {
    command.stdout(Stdio::piped()).stderr(Stdio::piped());
    match arrival {
        Arrival::File => {
            fs::write(file, input)?;
            collect(&mut command.stdin(File::open(file)?).spawn()?)
        }
        Arrival::Pipe { most, seed } => {
            let mut child = command.stdin(Stdio::piped()).spawn()?;
            let pipe = child.stdin.take();
            thread::scope(|scope| {
                scope.spawn(move || write_pieces(pipe, input, most, &Random::new(seed)));
                collect(&mut child)
            })
        }
    }
}

/// Writes until all is written or the program reads no more, as it does where the input is too long.
fn write_pieces(pipe: Option<impl Write>, input: &[u8], most: usize, random: &Random) {
    let Some(mut pipe) = pipe else { return };
    let mut pauses = random.one_in(8);
    let mut left = input;
    while !left.is_empty() {
        let piece = random.within(1..=most).min(left.len());
        if pipe.write_all(&left[..piece]).is_err() {
            return;
        }
        left = &left[piece..];
        if pauses {
            thread::sleep(PAUSE);
            pauses = false;
        }
    }
}

/// Reads both outputs to their ends; a program that hangs is stopped and found by its status.
fn collect(child: &mut Child) -> io::Result<Ran> {
    let stdout = child.stdout.take();
    let stderr = child.stderr.take();
    let (done, wait) = mpsc::channel();
    thread::scope(|scope| {
        let stdout = scope.spawn(move || {
            let read = read_all(stdout);
            // The receiver is there until this is received or the program is stopped.
            let _ = done.send(());
            read
        });
        let stderr = scope.spawn(move || read_all(stderr));
        if wait.recv_timeout(PATIENCE).is_err() {
            child.kill()?;
        }
        Ok(Ran {
            stdout: stdout.join().expect("reading does not panic")?,
            stderr: stderr.join().expect("reading does not panic")?,
            status: child.wait()?,
        })
    })
}

fn read_all(from: Option<impl Read>) -> io::Result<Vec<u8>> {
    let mut bytes = Vec::new();
    if let Some(mut from) = from {
        from.read_to_end(&mut bytes)?;
    }
    Ok(bytes)
}
