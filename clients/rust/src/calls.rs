//! The calls of a server.

use crate::parts::Parts;
use crate::{Error, Info, Items, Log, Notice, Options, Place, Reply, Server, Size};
use std::collections::VecDeque;

/// The version of the frames that is spoken here.
pub(crate) const VERSION: u16 = 4;

impl Server {
    /// Opens a log. What it says is `Opened` or `Repaired`.
    pub fn open(&self, log: &Log, options: &Options) -> Result<Reply, Error> {
        self.call(1, log, |parts| options.push(parts))
    }

    /// Logs items in one call.
    pub fn log<I: AsRef<[u8]>>(&self, log: &Log, items: &[I]) -> Result<Reply, Error> {
        let tag = self.send_log(log, items);
        self.answer(tag)
    }

    /// Logs each item by a call of its own, with up to so many calls under way.
    pub fn log_many<I: AsRef<[u8]>>(
        &self,
        log: &Log,
        items: impl IntoIterator<Item = I>,
        ahead: usize,
    ) -> Result<(), Error> {
        let mut tags = VecDeque::new();
        for item in items {
            if tags.len() >= ahead.max(1) {
                self.take_answers(&mut tags, ahead / 2)?;
            }
            tags.push_back(self.send_log(log, &[item]));
        }
        self.take_answers(&mut tags, 0)
    }

    /// Sends items and waits for no answer.
    pub fn alog<I: AsRef<[u8]>>(&self, log: &Log, items: &[I]) -> Result<(), Error> {
        self.send_unanswered(3, |parts| {
            parts.log(log);
            parts.items(items);
        })
    }

    /// At most so many items from a place on. What it says is `Items`, or `Eof` at the end.
    pub fn chunk(&self, log: &Log, from: Option<Place>, most: u64) -> Result<Reply, Error> {
        self.call(4, log, |parts| {
            parts.option(from, Parts::place);
            parts.bytes().extend(most.to_be_bytes());
        })
    }

    /// The place of the first item of the file that is so many files on.
    pub fn step(&self, log: &Log, from: Option<Place>, by: i32) -> Result<Reply, Error> {
        self.call(5, log, |parts| {
            parts.option(from, Parts::place);
            parts.bytes().extend(by.to_be_bytes());
        })
    }

    /// The items of a log from the first one on.
    pub fn items<'a>(&'a self, log: &'a Log) -> Items<'a> {
        Items::new(self, log)
    }

    /// Empties a log, which begins with the head item then.
    pub fn truncate(&self, log: &Log, head: Option<&[u8]>) -> Result<Reply, Error> {
        self.call(6, log, |parts| parts.option(head, Parts::item))
    }

    /// Gives the files of a log another base, and goes on with new ones.
    pub fn reopen(&self, log: &Log, base: &str, head: Option<&[u8]>) -> Result<Reply, Error> {
        self.call(7, log, |parts| {
            parts.name(base);
            parts.option(head, Parts::item);
        })
    }

    /// Begins the next file of a wrap log.
    pub fn next_file(&self, log: &Log) -> Result<Reply, Error> {
        self.call(8, log, |_| {})
    }

    /// Gives a log another limit.
    pub fn change_size(&self, log: &Log, size: Size) -> Result<Reply, Error> {
        self.call(9, log, |parts| parts.size(size))
    }

    /// What was logged is on the device once this has answered.
    pub fn sync(&self, log: &Log) -> Result<Reply, Error> {
        self.call(10, log, |_| {})
    }

    /// The same of these logs, in one call. It is `Error::Unsynced` with those that are not on the device; the others are, all
    /// the same. Name the logs that matter. If none are named it is all that are open, whoever opened them: one that is open
    /// read-only is not synced (E13), and nothing is said of a log whose open failed, or that is closed and still waits to be
    /// written.
    pub fn sync_all(&self, client: u32, logs: &[&str]) -> Result<Reply, Error> {
        self.ask(18, |parts| {
            parts.u32(client);
            parts.names(logs);
        })
    }

    /// Has the calls of other clients suspended, or refused, until `unblock`.
    pub fn block(&self, log: &Log, suspends: bool) -> Result<Reply, Error> {
        self.call(11, log, |parts| parts.byte(suspends.into()))
    }

    /// Lifts a block.
    pub fn unblock(&self, log: &Log) -> Result<Reply, Error> {
        self.call(12, log, |_| {})
    }

    /// What a log is.
    pub fn info(&self, log: &Log) -> Result<Info, Error> {
        match self.call(13, log, |_| {})? {
            Reply::Info(info) => Ok(*info),
            _ => Err(Error::Form),
        }
    }

    /// Gives a log up.
    pub fn close(&self, log: &Log) -> Result<Reply, Error> {
        self.call(14, log, |_| {})
    }

    /// Gives up all that a client owns.
    pub fn exit(&self, client: u32) -> Result<Reply, Error> {
        self.ask(15, |parts| parts.u32(client))
    }

    /// Writes the oldest block that waits.
    pub fn flush_block(&self) -> Result<Reply, Error> {
        self.ask(16, |_| {})
    }

    /// Writes all that waits.
    pub fn flush_all(&self) -> Result<Reply, Error> {
        self.ask(17, |_| {})
    }

    /// The names of the logs that are open, whoever opened them, in the order of opening.
    pub fn logs(&self) -> Result<Vec<String>, Error> {
        match self.ask(20, |_| {})? {
            Reply::Logs(names) => Ok(names),
            _ => Err(Error::Form),
        }
    }

    /// What the server says of itself. It changes nothing.
    pub fn hello(&self) -> Result<Reply, Error> {
        self.ask(0, |parts| parts.bytes().extend(VERSION.to_be_bytes()))
    }

    /// Takes the notices of the calls that were answered. One more question is asked, before whose answer all of them are read.
    pub fn notices(&self) -> Result<Vec<Notice>, Error> {
        self.hello()?;
        Ok(self.process.notices())
    }

    /// Takes the answers of calls until so many are under way.
    fn take_answers(&self, tags: &mut VecDeque<u32>, left: usize) -> Result<(), Error> {
        while tags.len() > left {
            let Some(tag) = tags.pop_front() else { break };
            self.answer(tag)?;
        }
        Ok(())
    }
}
