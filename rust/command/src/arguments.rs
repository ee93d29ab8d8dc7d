//! What a call was asked for.

use crate::clean::clean;
use crate::complaint::Complaint;
use std::ffi::{OsStr, OsString};
use std::os::unix::ffi::{OsStrExt, OsStringExt};

/// An option, and how many values it takes.
pub type Known = (&'static str, usize);

/// Options that every call has.
const ALWAYS: [Known; 3] = [(HELP, 0), ("-h", 0), (VERSION, 0)];
pub const HELP: &str = "--help";
pub const VERSION: &str = "--version";

#[derive(Default)]
pub struct Arguments {
    options: Vec<(&'static str, Vec<OsString>)>,
    /// What is no option and no option's value.
    pub plain: Vec<OsString>,
}

impl Arguments {
    pub fn read(given: impl Iterator<Item = OsString>, known: &[Known]) -> Result<Arguments, Complaint> {
        let mut arguments = Arguments::default();
        let mut given = given;
        while let Some(argument) = given.next() {
            if argument.as_bytes().starts_with(b"-") && argument != "-" {
                let (name, first) = parted(&argument);
                let known = ALWAYS.iter().chain(known).find(|(own, _)| *name == **own);
                let &(name, values) =
                    known.ok_or_else(|| Complaint::of(&shown(&argument), "there is no such option"))?;
                arguments.add(name, first.into_iter().chain(given.by_ref()), values, &argument)?;
            } else {
                arguments.plain.push(argument);
            }
        }
        Ok(arguments)
    }

    /// The option with its values, which stand at the beginning of `rest`.
    fn add(
        &mut self,
        name: &'static str,
        rest: impl Iterator<Item = OsString>,
        values: usize,
        argument: &OsStr,
    ) -> Result<(), Complaint> {
        if values == 0 && argument.len() > name.len() {
            return Err(Complaint::of(&shown(argument), "this option takes no value"));
        }
        let found: Vec<OsString> = rest.take(values).collect();
        if found.len() < values {
            return Err(Complaint::of(name, "a value is missing"));
        }
        if values > 0 && self.values(name).is_some() {
            return Err(Complaint::of(name, "it is given twice"));
        }
        self.options.push((name, found));
        Ok(())
    }

    pub fn has(&self, name: &str) -> bool {
        self.values(name).is_some()
    }

    pub fn asks_for_help(&self) -> bool {
        self.has(HELP) || self.has("-h")
    }

    /// The values of an option that was given.
    pub fn values(&self, name: &str) -> Option<&[OsString]> {
        self.options.iter().find(|(own, _)| *own == name).map(|(_, values)| values.as_slice())
    }

    /// The first of them.
    pub fn value(&self, name: &str) -> Option<&OsStr> {
        self.values(name)?.first().map(OsString::as_os_str)
    }

    /// The only file that is named, if any.
    pub fn file(&self) -> Result<Option<&OsStr>, Complaint> {
        match &self.plain[..] {
            [] => Ok(None),
            [file] => Ok(Some(file)),
            [_, second, ..] => Err(Complaint::of(&shown(second), "one file is read, and this is another")),
        }
    }
}

/// `--names=file` as option and value.
fn parted(argument: &OsStr) -> (OsString, Option<OsString>) {
    let bytes = argument.as_bytes();
    let owned = |bytes: &[u8]| OsString::from_vec(bytes.to_vec());
    match bytes.iter().position(|&byte| byte == b'=') {
        Some(place) => (owned(&bytes[..place]), Some(owned(&bytes[place + 1..]))),
        None => (owned(bytes), None),
    }
}

/// An argument, or a file's name, as it is shown.
pub fn shown(argument: &OsStr) -> String {
    clean(argument.as_bytes())
}
