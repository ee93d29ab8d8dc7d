//! Running a tally program on an input.

use crate::terminal::Terminal;
use std::ffi::OsStr;
use std::fmt::Display;
use std::fs::{self, File, Permissions};
use std::io::{ErrorKind, Read, Write};
use std::os::fd::OwnedFd;
use std::os::unix::fs::PermissionsExt;
use std::os::unix::net::UnixStream;
use std::path::{absolute, Path, PathBuf};
use std::process::{Child, Command, Stdio};
use std::sync::atomic::{AtomicUsize, Ordering};
use std::thread::ScopedJoinHandle;
use std::time::Duration;
use std::{env, process, thread};

#[derive(Clone)]
pub struct Program(PathBuf);

/// What a program wrote to standard output and to standard error.
pub struct Written {
    pub output: Vec<u8>,
    pub error: Vec<u8>,
}

impl Program {
    pub fn new(path: impl AsRef<OsStr>) -> Program {
        Program(PathBuf::from(path.as_ref()))
    }

    /// The program under test, named by TALLY. It is started in other folders too, so a path has to be whole.
    pub fn from_env() -> Option<Program> {
        let named = PathBuf::from(env::var_os("TALLY")?);
        let is_path = named.components().count() > 1;
        Some(Program(if is_path { absolute(&named).unwrap_or(named) } else { named }))
    }

    /// What the program writes when its input comes through a pipe in one piece.
    pub fn run(&self, input: &[u8]) -> Result<Vec<u8>, String> {
        self.run_pieces([input].into_iter(), Duration::ZERO)
    }

    /// The same in pieces; a pause after each lets the program read what there is.
    pub fn run_pieces<'a>(
        &self,
        pieces: impl Iterator<Item = &'a [u8]> + Send,
        pause: Duration,
    ) -> Result<Vec<u8>, String> {
        let mut child = self.start(&mut self.command())?;
        let pipe = child.stdin.take().ok_or("no pipe")?;
        thread::scope(|scope| {
            scope.spawn(move || feed(pipe, pieces, pause));
            finish(child)
        })
    }

    /// The same: all that the program writes, and what it leaves of its input.
    pub fn run_leaving<'a>(&self, pieces: impl Iterator<Item = &'a [u8]> + Send) -> Result<(Written, Vec<u8>), String> {
        let problem = |error: std::io::Error| error.to_string();
        let (here, mut there) = UnixStream::pair().map_err(problem)?;
        let input = OwnedFd::from(there.try_clone().map_err(problem)?);
        let child = self.start(self.command().stdin(input))?;
        thread::scope(|scope| {
            scope.spawn(move || feed(here, pieces, Duration::ZERO));
            let output = child.wait_with_output().map_err(problem)?;
            let mut rest = vec![];
            there.read_to_end(&mut rest).map_err(problem)?;
            Ok((Written { output: output.stdout, error: output.stderr }, rest))
        })
    }

    /// From a file, so that every read but the last gets as much as it asks for.
    pub fn run_file(&self, input: &[u8]) -> Result<Vec<u8>, String> {
        let file = TemporaryFile::new(input)?;
        finish(self.start(self.command().stdin(file.open()?))?)
    }

    /// Runs on an open file and throws the output away.
    pub fn run_silently(&self, input: File) -> Result<(), String> {
        let status = Command::new(&self.0).stdin(input).stdout(Stdio::null()).status().map_err(about(&self.0))?;
        match status.success() {
            true => Ok(()),
            false => Err(about(&self.0)(status)),
        }
    }

    /// With arguments, and an input through a pipe: all that the program writes to its outputs. It must end well.
    pub fn run_arguments(&self, arguments: &[&OsStr], input: &[u8]) -> Result<Written, String> {
        self.run_command(arguments, input, |_| {})
    }

    /// The same, with a last word on how it is started.
    pub fn run_command(
        &self,
        arguments: &[&OsStr],
        input: &[u8],
        prepare: impl FnOnce(&mut Command),
    ) -> Result<Written, String> {
        let mut command = self.command();
        command.args(arguments);
        prepare(&mut command);
        let mut child = self.start(&mut command)?;
        let pipe = child.stdin.take();
        thread::scope(|scope| {
            scope.spawn(move || pipe.map(|pipe| feed(pipe, [input].into_iter(), Duration::ZERO)));
            let output = child.wait_with_output().map_err(|error| error.to_string())?;
            match output.status.success() {
                true => Ok(Written { output: output.stdout, error: output.stderr }),
                false => Err(output.status.to_string()),
            }
        })
    }

    /// In pieces, to terminals: what standard output and standard error get. `output` says whether standard output is
    /// a terminal, `error` whether standard error is; one that is none is a pipe.
    pub fn run_watched<'a>(
        &self,
        pieces: impl Iterator<Item = &'a [u8]> + Send,
        pause: Duration,
        output: bool,
        error: bool,
    ) -> Result<Written, String> {
        let mut command = self.command();
        let [output, error] = [output, error].map(|wanted| wanted.then(Terminal::open).transpose());
        let (output, error) = (output?, error?);
        if let Some(terminal) = &output {
            command.stdout(terminal.program_side()?);
        }
        if let Some(terminal) = &error {
            command.stderr(terminal.program_side()?);
        }
        let mut child = self.start(&mut command)?;
        // It holds the program's sides open.
        drop(command);
        let pipe = child.stdin.take().ok_or("no pipe")?;
        thread::scope(|scope| {
            scope.spawn(move || feed(pipe, pieces, pause));
            let reading = |terminal: Terminal| scope.spawn(move || terminal.read_all());
            let [output, error] = [output, error].map(|terminal| terminal.map(reading));
            let written = child.wait_with_output().map_err(|error| error.to_string())?;
            Ok(Written { output: shown(output, written.stdout)?, error: shown(error, written.stderr)? })
        })
    }

    /// A copy that every user may start.
    pub fn copied(&self) -> Result<(TemporaryFile, Program), String> {
        let content = fs::read(&self.0).map_err(about(&self.0))?;
        let file = TemporaryFile::new(&content)?;
        file.set_mode(0o755)?;
        let program = Program(file.0.clone());
        Ok((file, program))
    }

    /// With a pipe for its input and for each output.
    fn command(&self) -> Command {
        let mut command = Command::new(&self.0);
        command.stdin(Stdio::piped()).stdout(Stdio::piped()).stderr(Stdio::piped());
        command
    }

    /// A copy that was just written can't be run as long as a process that another test is starting holds it open too.
    fn start(&self, command: &mut Command) -> Result<Child, String> {
        for _ in 0..400 {
            match command.spawn() {
                Err(error) if error.kind() == ErrorKind::ExecutableFileBusy => thread::sleep(Duration::from_millis(5)),
                started => return started.map_err(about(&self.0)),
            }
        }
        command.spawn().map_err(about(&self.0))
    }
}

/// A complaint about a file.
fn about<E: Display>(path: &Path) -> impl Fn(E) -> String + '_ {
    move |error| format!("{}: {error}", path.display())
}

/// Writes the pieces with a pause after each. After a fault the program may end without reading on.
fn feed<'a>(mut pipe: impl Write, pieces: impl Iterator<Item = &'a [u8]>, pause: Duration) {
    for piece in pieces {
        if pipe.write_all(piece).is_err() {
            break;
        }
        if !pause.is_zero() {
            thread::sleep(pause);
        }
    }
}

/// What was written to a terminal, or to the pipe in its place.
fn shown(terminal: Option<ScopedJoinHandle<Result<Vec<u8>, String>>>, piped: Vec<u8>) -> Result<Vec<u8>, String> {
    match terminal {
        Some(reading) => reading.join().map_err(|_| "the terminal's reader panicked".to_string())?,
        None => Ok(piped),
    }
}

/// All that a program writes; it must end well and have nothing to complain about but the first three lines.
fn finish(child: Child) -> Result<Vec<u8>, String> {
    let output = child.wait_with_output().map_err(|error| error.to_string())?;
    let said = String::from_utf8_lossy(&output.stderr);
    if output.status.success() && said.lines().all(|line| line.starts_with("tally: line ")) {
        Ok(output.stdout)
    } else {
        Err(format!("{}, {said}", output.status))
    }
}

/// A file that is removed when it is no longer wanted.
pub struct TemporaryFile(PathBuf);

impl TemporaryFile {
    pub fn new(content: &[u8]) -> Result<TemporaryFile, String> {
        static NEXT: AtomicUsize = AtomicUsize::new(0);
        let number = NEXT.fetch_add(1, Ordering::Relaxed);
        let path = env::temp_dir().join(format!("shaftglimmer-{}-{number}", process::id()));
        fs::write(&path, content).map_err(about(&path))?;
        Ok(TemporaryFile(path))
    }

    pub fn path(&self) -> &Path {
        &self.0
    }

    pub fn set_mode(&self, mode: u32) -> Result<(), String> {
        fs::set_permissions(&self.0, Permissions::from_mode(mode)).map_err(about(&self.0))
    }

    pub fn open(&self) -> Result<File, String> {
        File::open(&self.0).map_err(about(&self.0))
    }
}

impl Drop for TemporaryFile {
    fn drop(&mut self) {
        // Nothing is lost if it stays behind.
        let _ = fs::remove_file(&self.0);
    }
}
