//! How the texts of answers and notices are read.

use crate::answer::{Answer, Extent, Info, Notice, Place, Reply, Told, Turn, Writing};
use crate::error::{Cause, Reason, Refused};
use crate::parts::{Mode, Size};

const ARGUMENTS: [&str; 10] = [
    "kind",
    "size",
    "repair",
    "head",
    "items",
    "item",
    "count",
    "continuation",
    "blocks",
    "hold",
];

/// What is left of a text. What is missing there reads as `None`.
pub(crate) struct Reader<'a> {
    text: &'a [u8],
}

impl<'a> Reader<'a> {
    pub(crate) fn new(text: &'a [u8]) -> Reader<'a> {
        Reader { text }
    }

    pub(crate) fn answer(&mut self) -> Option<Answer> {
        let tag = self.u32()?;
        let kind = self.u8()?;
        if kind == 128 {
            return self.notice().map(Answer::Notice);
        }
        self.reply(kind).map(|reply| Answer::Reply(tag, reply))
    }

    fn reply(&mut self, kind: u8) -> Option<Reply> {
        Some(match kind {
            0 => Reply::Hello {
                version: u16::from_be_bytes(self.array()?),
                frame_limit: self.u32()?,
                suspended_limit: self.u32()?,
                program: self.short()?,
            },
            1 => Reply::Opened,
            2 => Reply::Repaired {
                kept: self.u64()?,
                bad: self.u64()?,
            },
            3 => Reply::Done,
            4 => Reply::Suspended,
            5 => Reply::Held,
            6 => Reply::Items {
                next: self.place()?,
                bad: self.u64()?,
                items: self.items()?,
            },
            7 => Reply::Eof,
            8 => Reply::At(self.place()?),
            9 => Reply::Info(Box::new(self.info()?)),
            10 => Reply::Turn(self.turn()?),
            11 => Reply::NoMemory,
            12 => Reply::Unsynced(self.list(Reader::unsynced)?),
            13 => Reply::Reason(self.option(Reader::reason)?),
            14 => Reply::Logs(self.list(Reader::short)?),
            63 => Reply::NoRequest(self.u32()?),
            _ => Reply::Refused(self.refusal(kind.checked_sub(64)?)?),
        })
    }

    fn unsynced(&mut self) -> Option<(String, Reply)> {
        let log = self.short()?;
        match self.u8()? {
            kind @ (4 | 11 | 64..) => Some((log, self.reply(kind)?)),
            _ => None,
        }
    }

    fn reason(&mut self) -> Option<Reason> {
        let (file, cause) = (self.file()?, self.u8()?);
        let number = i32::from_be_bytes(self.array()?);
        let cause = match cause {
            0 => Cause::System(number),
            1 => Cause::OutOfMemory,
            2 => Cause::NotPlain,
            3 => Cause::Shorter,
            4 => Cause::Lost,
            _ => Cause::Other,
        };
        Some(Reason { file, cause })
    }

    fn refusal(&mut self, number: u8) -> Option<Refused> {
        Some(match number {
            1 | 4 => Refused::Argument(number, ARGUMENTS.get(usize::from(self.u8()?))?),
            5 => Refused::Sizes {
                old: self.size()?,
                new: self.size()?,
            },
            8 => Refused::Log(self.short()?),
            10 => Refused::File(number, self.file()?),
            24 => Refused::Device {
                file: self.file()?,
                cause: None,
            },
            19 => Refused::Bytes(self.u64()?),
            23 => Refused::Number(self.u32()?),
            _ => Refused::Plain(number),
        })
    }

    fn notice(&mut self) -> Option<Notice> {
        let (client, log) = (self.u32()?, self.short()?);
        let what = match self.u8()? {
            0 => Told::Wrap(self.u64()?),
            1 => Told::Truncated(self.u64()?),
            2 => Told::Full,
            3 => Told::Status(self.status()?),
            4 => Told::ReadOnly(self.items()?),
            5 => Told::Blocked(self.items()?),
            6 => Told::NoSuchLog,
            _ => return None,
        };
        Some(Notice { client, log, what })
    }

    fn status(&mut self) -> Option<Option<Refused>> {
        if !self.bool()? {
            return Some(None);
        }
        let kind = self.u8()?;
        self.refusal(kind.checked_sub(64)?).map(Some)
    }

    fn turn(&mut self) -> Option<Turn> {
        match self.u8()? {
            0 => self.short().map(Turn::Drained),
            1 => Some(Turn::Idle),
            _ => self.short().map(Turn::Fault),
        }
    }

    fn info(&mut self) -> Option<Info> {
        Some(Info {
            log: self.short()?,
            base: self.short()?,
            wrap: self.bool()?,
            size: self.size()?,
            mode: if self.bool()? {
                Mode::ReadOnly
            } else {
                Mode::ReadWrite
            },
            owners: self.list(|it| Some((it.u32()?, it.bool()?)))?,
            users: self.u32()?,
            blocked: self.option(Reader::bool)?,
            writing: self.option(Reader::writing)?,
        })
    }

    fn writing(&mut self) -> Option<Writing> {
        Some(Writing {
            head: self.option(Reader::bytes)?,
            written: self.u64()?,
            extent: self.extent()?,
            hold: self.option(Reader::u32)?,
        })
    }

    fn extent(&mut self) -> Option<Extent> {
        if !self.bool()? {
            return Some(Extent::Halt { full: self.bool()? });
        }
        Some(Extent::Wrap {
            bytes: self.u64()?,
            items: self.u64()?,
            all_items: self.u64()?,
            file: self.u32()?,
            rolls_since_open: self.u64()?,
            rolls_since_info: self.u64()?,
        })
    }

    fn size(&mut self) -> Option<Size> {
        Some(match self.u8()? {
            0 => Size::Infinity,
            1 => Size::Bytes(self.u64()?),
            _ => Size::Wrap {
                bytes: self.u64()?,
                files: self.u32()?,
            },
        })
    }

    fn file(&mut self) -> Option<String> {
        let base = self.short()?;
        Some(match self.u8()? {
            0 => base + ".log",
            1 => base + ".idx",
            _ => format!("{base}.{}", self.u32()?),
        })
    }

    fn place(&mut self) -> Option<Place> {
        self.array().map(Place::from_bytes)
    }

    fn items(&mut self) -> Option<Vec<Vec<u8>>> {
        self.list(Reader::bytes)
    }

    fn list<T>(&mut self, part: impl Fn(&mut Self) -> Option<T>) -> Option<Vec<T>> {
        let count = self.u32()?;
        (0..count).map(|_| part(self)).collect()
    }

    fn option<T>(&mut self, part: impl FnOnce(&mut Self) -> Option<T>) -> Option<Option<T>> {
        if self.bool()? {
            part(self).map(Some)
        } else {
            Some(None)
        }
    }

    fn bytes(&mut self) -> Option<Vec<u8>> {
        let length = self.u32()? as usize;
        self.take(length).map(<[u8]>::to_vec)
    }

    fn short(&mut self) -> Option<String> {
        let length = self.u8()?.into();
        self.take(length)
            .map(|text| String::from_utf8_lossy(text).into_owned())
    }

    fn bool(&mut self) -> Option<bool> {
        self.u8().map(|byte| byte != 0)
    }

    fn u8(&mut self) -> Option<u8> {
        self.array().map(u8::from_be_bytes)
    }

    fn u32(&mut self) -> Option<u32> {
        self.array().map(u32::from_be_bytes)
    }

    fn u64(&mut self) -> Option<u64> {
        self.array().map(u64::from_be_bytes)
    }

    fn array<const N: usize>(&mut self) -> Option<[u8; N]> {
        self.take(N)?.try_into().ok()
    }

    fn take(&mut self, count: usize) -> Option<&'a [u8]> {
        if self.text.len() < count {
            return None;
        }
        let (part, rest) = self.text.split_at(count);
        self.text = rest;
        Some(part)
    }
}
