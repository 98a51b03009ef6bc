//! What keeps a call from its answer.

use crate::calls::VERSION;
use crate::parts::Size;
use std::fmt;
use std::io;
use std::process::ExitStatus;

const REFUSALS: [&str; 26] = [
    "",
    "bad_arg",
    "no_such_log",
    "name_already_open",
    "arg_mismatch",
    "size_mismatch",
    "open_read_write",
    "open_read_only",
    "file_in_use",
    "no_file",
    "not_a_log_file",
    "invalid_index_file",
    "need_repair",
    "read_only_mode",
    "full",
    "blocked_log",
    "not_blocked",
    "not_blocked_by_pid",
    "halt_log",
    "new_size_too_small",
    "same_file_name",
    "stale_continuation",
    "end_of_log",
    "corrupt_log_file",
    "device_fault",
    "exhausted",
];

/// Why a call of the device failed.
#[derive(Clone, Copy, Debug, PartialEq, Eq)]
pub enum Cause {
    /// The system refused it, with this error number.
    System(i32),
    OutOfMemory,
    /// The file is a link, a folder or a pipe.
    NotPlain,
    /// The file is shorter than it was left.
    Shorter,
    /// An earlier sync of the file failed.
    Lost,
    /// The system gave no reason.
    Other,
}

impl fmt::Display for Cause {
    fn fmt(&self, out: &mut fmt::Formatter<'_>) -> fmt::Result {
        match self {
            Cause::System(number) => write!(out, "{}", io::Error::from_raw_os_error(*number)),
            Cause::OutOfMemory => write!(out, "out of memory"),
            Cause::NotPlain => write!(out, "it is a link, a folder or a pipe, and no plain file"),
            Cause::Shorter => write!(out, "it is shorter than it was left"),
            Cause::Lost => write!(out, "an earlier sync of it failed"),
            Cause::Other => write!(out, "the system gave no reason"),
        }
    }
}

/// Why the last call of the device that failed did, and on which file.
#[derive(Clone, Debug, PartialEq, Eq)]
pub struct Reason {
    pub file: String,
    pub cause: Cause,
}

/// Why the server refused a call, by the number that docs/SCRIPTS.md has for it, and what it speaks of.
#[derive(Clone, Debug, PartialEq, Eq)]
pub enum Refused {
    Plain(u8),
    /// 1, 4: an argument.
    Argument(u8, &'static str),
    /// 5: the size of the log, and the one that was asked for.
    Sizes {
        old: Size,
        new: Size,
    },
    /// 8: the log that has the base.
    Log(String),
    /// 10: a file.
    File(u8, String),
    /// 24: a file, and why the device failed, if the server knows.
    Device {
        file: String,
        cause: Option<Cause>,
    },
    /// 19: the bytes that the log has.
    Bytes(u64),
    /// 23: the number of a file.
    Number(u32),
}

impl Refused {
    pub fn number(&self) -> u8 {
        match self {
            Refused::Plain(number) | Refused::Argument(number, _) | Refused::File(number, _) => {
                *number
            }
            Refused::Sizes { .. } => 5,
            Refused::Log(_) => 8,
            Refused::Bytes(_) => 19,
            Refused::Device { .. } => 24,
            Refused::Number(_) => 23,
        }
    }
}

impl fmt::Display for Refused {
    fn fmt(&self, out: &mut fmt::Formatter<'_>) -> fmt::Result {
        let number = self.number();
        let name = REFUSALS.get(usize::from(number)).unwrap_or(&"");
        write!(out, "E{number} {name}")?;
        match self {
            Refused::Plain(_) => Ok(()),
            Refused::Argument(_, argument) => write!(out, " {argument}"),
            Refused::Sizes { old, new } => write!(out, " {old} {new}"),
            Refused::Log(of) | Refused::File(_, of) => write!(out, " {of}"),
            Refused::Bytes(bytes) => write!(out, " {bytes}"),
            Refused::Device { file, cause: None } => write!(out, " {file}"),
            Refused::Device {
                file,
                cause: Some(cause),
            } => write!(out, " {file}: {cause}"),
            Refused::Number(file) => write!(out, " {file}"),
        }
    }
}

/// How a server has ended.
#[derive(Clone, Debug)]
pub struct Ended {
    /// None if it is not known.
    pub status: Option<ExitStatus>,
    /// Its last words on standard error.
    pub words: String,
    /// Whether the call was sent, and so may have been done or not.
    pub may_be_done: bool,
}

#[derive(Debug)]
pub enum Error {
    /// The server refused the call.
    Refused(Refused),
    /// No server could read the call, so it was not sent: a name that no log can have, an item or a request that is too long.
    Invalid(String),
    /// The server could not read the request; the first wrong part of its text begins there.
    NoRequest(u32),
    /// A block keeps the call off, and it does not wait for the block: in a `sync_all`, which waits for none, or where 1,024
    /// calls wait already.
    Suspended,
    /// The server was refused memory, and did nothing.
    NoMemory,
    /// Of the logs of a `sync_all` these are not on the device, each with what its sync has met.
    Unsynced(Vec<(String, Error)>),
    /// The server has ended, or did not start.
    Gone(Ended),
    /// The server did not answer in time. The call may yet be done.
    TimedOut,
    /// No answer is awaited for this tag.
    NoCall(u32),
    /// An answer is of no form of the protocol.
    Form,
    /// The server speaks this version of the frames, which is not the one that is spoken here.
    Version(u16),
    /// The program, which the error names, could not be started.
    Start(io::Error),
}

impl Error {
    /// Whether the device failed.
    pub(crate) fn is_fault(&self) -> bool {
        match self {
            Error::Refused(Refused::Device { .. }) => true,
            Error::Unsynced(logs) => logs.iter().any(|(_, why)| why.is_fault()),
            _ => false,
        }
    }

    /// Notes the reason of the last fault at each fault of its file.
    pub(crate) fn note(&mut self, known: &Reason) {
        match self {
            Error::Refused(Refused::Device { file, cause }) if *file == known.file => {
                *cause = Some(known.cause)
            }
            Error::Unsynced(logs) => logs.iter_mut().for_each(|(_, why)| why.note(known)),
            _ => {}
        }
    }
}

impl From<io::Error> for Error {
    fn from(error: io::Error) -> Error {
        Error::Start(error)
    }
}

impl fmt::Display for Ended {
    fn fmt(&self, out: &mut fmt::Formatter<'_>) -> fmt::Result {
        write!(out, "the server has ended")?;
        if let Some(status) = self.status {
            write!(out, " with {status}")?;
        }
        if !self.words.is_empty() {
            write!(out, ": {}", self.words)?;
        }
        Ok(())
    }
}

impl fmt::Display for Error {
    fn fmt(&self, out: &mut fmt::Formatter<'_>) -> fmt::Result {
        match self {
            Error::Refused(refused) => write!(out, "{refused}"),
            Error::Invalid(why) => write!(out, "{why}"),
            Error::NoRequest(place) => write!(out, "no request from byte {place} on"),
            Error::Suspended => write!(out, "a block keeps it off"),
            Error::NoMemory => write!(out, "out of memory"),
            Error::Unsynced(logs) => {
                let each = logs.iter().map(|(log, why)| format!("{log}: {why}"));
                write!(out, "not on the device: {}", each.collect::<Vec<_>>().join("; "))
            }
            Error::Gone(ended) => write!(out, "{ended}"),
            Error::TimedOut => write!(
                out,
                "the server has not answered in time; the call may yet be done"
            ),
            Error::NoCall(tag) => write!(out, "no answer is awaited for the tag {tag}"),
            Error::Form => write!(out, "an answer is of no form"),
            Error::Version(version) => write!(
                out,
                "the server speaks version {version} of the frames, and this client version {VERSION}"
            ),
            Error::Start(error) => write!(out, "the server could not be started: {error}"),
        }
    }
}

impl std::error::Error for Error {}
