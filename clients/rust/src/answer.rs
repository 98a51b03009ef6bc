//! Answers and notices.

use crate::error::{Error, Reason, Refused};
use crate::parts::{Mode, Size};

/// A place in a log, as an answer gave it. Its bytes may be kept, and given to a later server.
#[derive(Clone, Copy, Debug, PartialEq, Eq)]
pub struct Place([u8; Place::BYTES]);

impl Place {
    pub const BYTES: usize = 17;

    /// The place whose bytes were kept.
    pub fn from_bytes(bytes: [u8; Place::BYTES]) -> Place {
        Place(bytes)
    }

    pub fn as_bytes(&self) -> &[u8; Place::BYTES] {
        &self.0
    }
}

/// What became of a flush.
#[derive(Clone, Debug, PartialEq, Eq)]
pub enum Turn {
    Drained(String),
    Idle,
    Fault(String),
}

/// What a server answers to a call. One that is refused is an `Error`.
#[derive(Clone, Debug, PartialEq, Eq)]
pub enum Reply {
    Hello {
        version: u16,
        frame_limit: u32,
        suspended_limit: u32,
        program: String,
    },
    Opened,
    Repaired {
        kept: u64,
        bad: u64,
    },
    Done,
    Held,
    Items {
        next: Place,
        bad: u64,
        items: Vec<Vec<u8>>,
    },
    Eof,
    At(Place),
    Info(Box<Info>),
    Turn(Turn),
    Suspended,
    NoMemory,
    /// To a sync of many logs: those that are not on the device, and what each of their syncs was answered.
    Unsynced(Vec<(String, Reply)>),
    /// Why the last call of the device that failed did, if that is known.
    Reason(Option<Reason>),
    Logs(Vec<String>),
    NoRequest(u32),
    Refused(Refused),
}

impl Reply {
    pub(crate) fn into_result(self) -> Result<Reply, Error> {
        match self {
            Reply::Refused(refused) => Err(Error::Refused(refused)),
            Reply::NoRequest(place) => Err(Error::NoRequest(place)),
            Reply::Suspended => Err(Error::Suspended),
            Reply::NoMemory => Err(Error::NoMemory),
            Reply::Unsynced(logs) if !logs.is_empty() => Err(Error::Unsynced(
                logs.into_iter()
                    .filter_map(|(log, reply)| Some((log, reply.into_result().err()?)))
                    .collect(),
            )),
            reply => Ok(reply),
        }
    }
}

/// What a log is. `writing` is missing if it is read alone.
#[derive(Clone, Debug, PartialEq, Eq)]
pub struct Info {
    pub log: String,
    pub base: String,
    pub wrap: bool,
    pub size: Size,
    pub mode: Mode,
    /// The clients that own it, and whether they have notices.
    pub owners: Vec<(u32, bool)>,
    pub users: u32,
    /// A block, and whether it suspends.
    pub blocked: Option<bool>,
    pub writing: Option<Writing>,
}

#[derive(Clone, Debug, PartialEq, Eq)]
pub struct Writing {
    pub head: Option<Vec<u8>>,
    pub written: u64,
    pub extent: Extent,
    /// The most blocks that the log may have.
    pub hold: Option<u32>,
}

#[derive(Clone, Debug, PartialEq, Eq)]
pub enum Extent {
    Halt {
        full: bool,
    },
    Wrap {
        bytes: u64,
        items: u64,
        all_items: u64,
        file: u32,
        rolls_since_open: u64,
        rolls_since_info: u64,
    },
}

/// What an owner of a log is told.
#[derive(Clone, Debug, PartialEq, Eq)]
pub struct Notice {
    pub client: u32,
    pub log: String,
    pub what: Told,
}

#[derive(Clone, Debug, PartialEq, Eq)]
pub enum Told {
    Wrap(u64),
    Truncated(u64),
    Full,
    /// The outcome of the last attempt has changed: to none, or to this refusal.
    Status(Option<Refused>),
    ReadOnly(Vec<Vec<u8>>),
    Blocked(Vec<Vec<u8>>),
    NoSuchLog,
}

#[derive(Clone, Debug, PartialEq, Eq)]
pub enum Answer {
    Reply(u32, Reply),
    Notice(Notice),
}
