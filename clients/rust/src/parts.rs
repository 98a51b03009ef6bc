//! The parts of requests.

use crate::{Error, Log, Place};
use std::fmt;

/// The most bytes of an item.
pub const ITEM_LIMIT: usize = 1_048_576;
/// What most requests are shorter than.
const USUAL_BYTES: usize = 256;
/// The most letters of a name.
pub const NAME_LIMIT: usize = 64;

/// How long a log may become.
#[derive(Clone, Copy, Debug, PartialEq, Eq)]
pub enum Size {
    Infinity,
    /// A halt log of at most so many bytes.
    Bytes(u64),
    /// A wrap log of so many files of so many bytes.
    Wrap {
        bytes: u64,
        files: u32,
    },
}

#[derive(Clone, Copy, Debug, Default, PartialEq, Eq)]
pub enum Mode {
    #[default]
    ReadWrite,
    ReadOnly,
}

#[derive(Clone, Copy, Debug, Default, PartialEq, Eq)]
pub enum Repair {
    #[default]
    Yes,
    No,
    Truncate,
}

/// How a log is opened. The default is a halt log at its own name, read and written, repaired if it has to be, with the size
/// that it has; also where the folder has a wrap log of its name: a new log is begun beside that.
#[derive(Clone, Debug, Default)]
pub struct Options {
    /// A wrap log, as one that is there is opened. It is one too if its size says so.
    pub wrap: bool,
    pub base: Option<String>,
    pub size: Option<Size>,
    pub mode: Mode,
    pub repair: Repair,
    pub head: Option<Vec<u8>>,
    pub notify: bool,
    pub anonymous: bool,
    /// The most of the server's blocks that the log may have. Where an item needs more, what waits of the log is written.
    pub hold: Option<u32>,
}

impl Options {
    pub(crate) fn push(&self, parts: &mut Parts) {
        let wrap = self.wrap || matches!(self.size, Some(Size::Wrap { .. }));
        parts.byte(wrap.into());
        parts.option(self.base.as_deref(), Parts::name);
        parts.option(self.size, Parts::size);
        parts.byte(self.mode as u8);
        parts.byte(self.repair as u8);
        parts.option(self.head.as_deref(), Parts::item);
        parts.byte(self.notify.into());
        parts.byte(self.anonymous.into());
        parts.option(self.hold, Parts::u32);
    }
}

impl fmt::Display for Size {
    fn fmt(&self, out: &mut fmt::Formatter<'_>) -> fmt::Result {
        match self {
            Size::Infinity => write!(out, "infinity"),
            Size::Bytes(bytes) => write!(out, "{bytes}"),
            Size::Wrap { bytes, files } => write!(out, "{bytes}x{files}"),
        }
    }
}

/// A request that is put together, and why no server could read it.
pub(crate) struct Parts {
    bytes: Vec<u8>,
    fault: Option<String>,
}

impl Parts {
    /// Begins a request, whose length is set as it ends.
    pub(crate) fn request(tag: u32, number: u8) -> Parts {
        let mut parts = Parts {
            bytes: Vec::with_capacity(USUAL_BYTES),
            fault: None,
        };
        parts.u32(0);
        parts.u32(tag);
        parts.byte(number);
        parts
    }

    /// The frame of the request, of a text with at most so many bytes.
    pub(crate) fn frame(mut self, limit: u32) -> Result<Vec<u8>, Error> {
        let length = self.bytes.len() - 4;
        if let Some(fault) = self.fault {
            return Err(Error::Invalid(fault));
        }
        match u32::try_from(length) {
            Ok(number) if number <= limit => {
                self.bytes[..4].copy_from_slice(&number.to_be_bytes());
                Ok(self.bytes)
            }
            _ => Err(Error::Invalid(format!(
                "a request of {length} bytes: it has at most {limit}"
            ))),
        }
    }

    /// What follows as the program has it.
    pub(crate) fn bytes(&mut self) -> &mut Vec<u8> {
        &mut self.bytes
    }

    pub(crate) fn byte(&mut self, byte: u8) {
        self.bytes.push(byte);
    }

    pub(crate) fn u32(&mut self, number: u32) {
        self.bytes.extend(number.to_be_bytes());
    }

    fn u64(&mut self, number: u64) {
        self.bytes.extend(number.to_be_bytes());
    }

    pub(crate) fn log(&mut self, log: &Log) {
        self.u32(log.client);
        self.name(&log.name);
    }

    /// A name or a base.
    pub(crate) fn name(&mut self, name: &str) {
        let is_letter = |byte: u8| byte.is_ascii_alphanumeric() || byte == b'_' || byte == b'-';
        if name.is_empty() || name.len() > NAME_LIMIT || !name.bytes().all(is_letter) {
            self.refuse(format!(
                "the name {name:?}: a name is 1 to {NAME_LIMIT} of A-Z a-z 0-9 _ -"
            ));
        }
        self.byte(name.len() as u8);
        self.bytes.extend(name.as_bytes());
    }

    pub(crate) fn names(&mut self, names: &[&str]) {
        self.u32(names.len() as u32);
        for name in names {
            self.name(name);
        }
    }

    pub(crate) fn item(&mut self, item: &[u8]) {
        if item.len() > ITEM_LIMIT {
            self.refuse(format!(
                "an item of {} bytes: an item has at most {ITEM_LIMIT}",
                item.len()
            ));
        }
        self.u32(item.len() as u32);
        self.bytes.extend(item);
    }

    pub(crate) fn items<I: AsRef<[u8]>>(&mut self, items: &[I]) {
        if items.is_empty() {
            self.refuse("a call of no items: it has at least one".to_owned());
        }
        self.u32(items.len() as u32);
        for item in items {
            self.item(item.as_ref());
        }
    }

    pub(crate) fn option<T>(&mut self, value: Option<T>, push: impl FnOnce(&mut Parts, T)) {
        self.byte(value.is_some().into());
        if let Some(value) = value {
            push(self, value);
        }
    }

    pub(crate) fn place(&mut self, place: Place) {
        self.bytes.extend(place.as_bytes());
    }

    pub(crate) fn size(&mut self, size: Size) {
        match size {
            Size::Infinity => self.byte(0),
            Size::Bytes(bytes) => {
                self.byte(1);
                self.u64(bytes);
            }
            Size::Wrap { bytes, files } => {
                self.byte(2);
                self.u64(bytes);
                self.u32(files);
            }
        }
    }

    fn refuse(&mut self, why: String) {
        self.fault.get_or_insert(why);
    }
}
