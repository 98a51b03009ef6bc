//! Logs of a dlog server, which is started as a program and answers frames (docs/PROTOCOL.md).
//!
//! ```no_run
//! # fn main() -> Result<(), dlog::Error> {
//! let server = dlog::Server::start("dlog", "logs")?;
//! let log = dlog::Log::new(1, "audit");
//! server.open(&log, &dlog::Options::default())?;
//! server.log(&log, &["first", "second"])?;
//! for item in server.items(&log) {
//!     println!("{:?}", item?);
//! }
//! server.stop()?;
//! # Ok(())
//! # }
//! ```

mod answer;
mod calls;
mod error;
mod items;
mod parts;
mod pipe;
mod process;
mod program;
mod reading;
mod server;

pub use answer::{Answer, Extent, Info, Notice, Place, Reply, Told, Turn, Writing};
pub use error::{Cause, Ended, Error, Reason, Refused};
pub use items::Items;
pub use parts::{Mode, Options, Repair, Size, ITEM_LIMIT, NAME_LIMIT};
pub use server::{Server, Settings};

/// A log, as one client knows it. A client is a number that the program chooses.
#[derive(Clone, Debug, PartialEq, Eq)]
pub struct Log {
    pub client: u32,
    pub name: String,
}

impl Log {
    pub fn new(client: u32, name: &str) -> Log {
        Log {
            client,
            name: name.to_owned(),
        }
    }
}
