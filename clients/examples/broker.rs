//! The topics of a broker, and their consumers: a topic is a wrap log, a message is acknowledged once it is on the device, and each
//! consumer keeps its place in a file. `broker_day.rs` plays a day of it.

use dlog::{Error, Log, Options, Place, Reply, Server, Size};
use std::fs::{self, File};
use std::io::Write;
use std::path::{Path, PathBuf};
use std::thread;
use std::time::Duration;

pub type Outcome<T> = Result<T, Box<dyn std::error::Error + Send + Sync>>;

const SYNC: u8 = 10;
const STALE: u8 = 21;
const SIZE: Size = Size::Wrap {
    bytes: 4_000,
    files: 4,
};

/// A topic, as one producer or consumer knows it.
pub struct Topic<'a> {
    pub server: &'a Server,
    pub log: Log,
}

impl<'a> Topic<'a> {
    pub fn open(server: &'a Server, client: u32, name: &str) -> Outcome<Topic<'a>> {
        let log = Log::new(client, name);
        let size = Some(SIZE);
        server.open(
            &log,
            &Options {
                size,
                ..Options::default()
            },
        )?;
        Ok(Topic { server, log })
    }

    /// Returns once the message is on the device. The log and the sync are sent together, so that producers share syncs.
    pub fn publish(&self, message: &str) -> Outcome<()> {
        let logged = self.server.send_log(&self.log, &[message]);
        let synced = self.server.send(SYNC, &self.log, |_| {});
        self.server.answer(logged)?;
        self.server.answer(synced)?;
        Ok(())
    }
}

/// What a consumer finds at its place.
#[derive(Debug, PartialEq)]
pub enum Found {
    Messages(Vec<String>),
    Nothing,
    /// The messages at its place gave way to later ones: it goes on with the oldest that is there.
    Overrun,
}

/// A consumer of a topic. It goes on at the place that it last kept, whichever server or process is there by then.
pub struct Consumer<'a> {
    topic: Topic<'a>,
    file: PathBuf,
    place: Option<Place>,
}

impl<'a> Consumer<'a> {
    pub fn new(topic: Topic<'a>, places: &Path, name: &str) -> Consumer<'a> {
        let file = places.join(format!("{name}.{}", topic.log.name));
        let kept = fs::read(&file).ok().and_then(|bytes| bytes.try_into().ok());
        Consumer {
            topic,
            file,
            place: kept.map(Place::from_bytes),
        }
    }

    pub fn next(&mut self, most: u64) -> Outcome<Found> {
        match self.topic.server.chunk(&self.topic.log, self.place, most) {
            Ok(Reply::Items { next, items, .. }) => {
                self.place = Some(next);
                Ok(Found::Messages(
                    items
                        .iter()
                        .map(|it| String::from_utf8_lossy(it).into_owned())
                        .collect(),
                ))
            }
            Ok(_) => Ok(Found::Nothing),
            Err(Error::Refused(refused)) if refused.number() == STALE => {
                self.place = None;
                Ok(Found::Overrun)
            }
            Err(error) => Err(error.into()),
        }
    }

    /// Keeps the place, once the messages before it are dealt with. They are on the device then: a place behind messages that a stop
    /// takes would name later ones.
    pub fn keep(&self) -> Outcome<()> {
        let Some(place) = self.place else {
            return Ok(());
        };
        self.topic.server.sync(&self.topic.log)?;
        let mut new = self.file.clone().into_os_string();
        new.push(".new");
        let mut file = File::create(&new)?;
        file.write_all(place.as_bytes())?;
        file.sync_all()?;
        Ok(fs::rename(new, &self.file)?)
    }

    /// Reads until so many messages have come.
    pub fn take(&mut self, count: usize) -> Outcome<Vec<String>> {
        let mut taken = Vec::new();
        while taken.len() < count {
            match self.next((count - taken.len()) as u64)? {
                Found::Messages(messages) => taken.extend(messages),
                Found::Nothing => thread::sleep(Duration::from_millis(5)),
                Found::Overrun => return Err("overrun".into()),
            }
        }
        self.keep()?;
        Ok(taken)
    }
}
