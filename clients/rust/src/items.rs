//! The items of a log, one after another.

use crate::{Error, Log, Place, Reply, Server};

/// How many items are asked for at a time.
const MOST: u64 = 4096;

/// The items of a log, read a chunk at a time.
pub struct Items<'a> {
    server: &'a Server,
    log: &'a Log,
    next: Option<Place>,
    items: std::vec::IntoIter<Vec<u8>>,
    ended: bool,
}

impl<'a> Items<'a> {
    pub(crate) fn new(server: &'a Server, log: &'a Log) -> Items<'a> {
        Items {
            server,
            log,
            next: None,
            items: Vec::new().into_iter(),
            ended: false,
        }
    }
}

impl Iterator for Items<'_> {
    type Item = Result<Vec<u8>, Error>;

    fn next(&mut self) -> Option<Self::Item> {
        while !self.ended {
            if let Some(item) = self.items.next() {
                return Some(Ok(item));
            }
            match self.server.chunk(self.log, self.next, MOST) {
                Ok(Reply::Items { next, items, .. }) => {
                    self.next = Some(next);
                    self.items = items.into_iter();
                }
                Ok(_) => self.ended = true,
                Err(error) => {
                    self.ended = true;
                    return Some(Err(error));
                }
            }
        }
        None
    }
}
