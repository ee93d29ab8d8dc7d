//! Pseudo-terminals: what a program writes to a terminal.

use std::ffi::{c_char, c_int, CStr};
use std::fs::{File, OpenOptions};
use std::io::{ErrorKind, Read};
use std::os::fd::{AsRawFd, FromRawFd};
use std::os::unix::fs::OpenOptionsExt;

extern "C" {
    fn posix_openpt(flags: c_int) -> c_int;
    fn grantpt(fd: c_int) -> c_int;
    fn unlockpt(fd: c_int) -> c_int;
    fn ptsname_r(fd: c_int, name: *mut c_char, length: usize) -> c_int;
}

/// As Linux has them.
const O_RDWR: c_int = 2;
const O_NOCTTY: c_int = 0o400;

/// The side that a person would look at.
pub struct Terminal(File);

impl Terminal {
    pub fn open() -> Result<Terminal, String> {
        // SAFETY: plain numbers in and out; the descriptor, if there is one, is nobody else's.
        let fd = unsafe { posix_openpt(O_RDWR | O_NOCTTY) };
        if fd < 0 {
            return Err("no pseudo-terminal".into());
        }
        let terminal = Terminal(unsafe { File::from_raw_fd(fd) });
        // SAFETY: the descriptor is open.
        if unsafe { grantpt(fd) != 0 || unlockpt(fd) != 0 } {
            return Err("the pseudo-terminal stays locked".into());
        }
        Ok(terminal)
    }

    /// The side that a program writes to.
    pub fn program_side(&self) -> Result<File, String> {
        let mut name: [c_char; 128] = [0; 128];
        // SAFETY: the name is written within the buffer, and ended by a zero.
        let name = unsafe {
            if ptsname_r(self.0.as_raw_fd(), name.as_mut_ptr(), name.len()) != 0 {
                return Err("the pseudo-terminal has no name".into());
            }
            CStr::from_ptr(name.as_ptr()).to_string_lossy().into_owned()
        };
        let opened = OpenOptions::new().read(true).write(true).custom_flags(O_NOCTTY).open(&name);
        opened.map_err(|error| format!("{name}: {error}"))
    }

    /// All that is written until the last program has closed its side, with the newlines as the program wrote them.
    pub fn read_all(mut self) -> Result<Vec<u8>, String> {
        let mut text = vec![];
        let mut block = [0; 4_096];
        loop {
            match self.0.read(&mut block) {
                Ok(0) => break,
                Ok(count) => text.extend(&block[..count]),
                Err(error) if error.kind() == ErrorKind::Interrupted => {}
                // Linux says so once the other side is closed.
                Err(_) => break,
            }
        }
        let text = String::from_utf8(text).map_err(|_| "the terminal got bytes that are no text")?;
        Ok(text.replace("\r\n", "\n").into_bytes())
    }
}
