//! A server: how it is started, sent requests and stopped.

use crate::calls::VERSION;
use crate::parts::Parts;
use crate::process::Process;
use crate::program::locked;
use crate::{Ended, Error, Log, Reply};
use std::io::{self, ErrorKind, Write};
use std::path::Path;
use std::process::{ChildStdin, Command};
use std::sync::Mutex;
use std::thread;
use std::time::{Duration, Instant};

const TRY_AGAIN: Duration = Duration::from_millis(50);

/// How a server is started. The default has 16 blocks, and no limits of time.
#[derive(Clone, Copy, Debug)]
pub struct Settings {
    pub blocks: u32,
    pub unsynced_rolls: bool,
    /// How long a folder is waited for that another program has, as one does that was killed and still writes.
    pub wait: Duration,
    /// How long a call may take.
    pub timeout: Option<Duration>,
}

impl Default for Settings {
    fn default() -> Settings {
        Settings {
            blocks: 16,
            unsynced_rolls: false,
            wait: Duration::ZERO,
            timeout: None,
        }
    }
}

/// What is to be sent.
struct Sending {
    /// None once the input is ended.
    input: Option<ChildStdin>,
    frames: Vec<u8>,
    tag: u32,
}

/// A server over a folder, which has been started as a program.
///
/// Threads may share it: their calls are under way together. One that is dropped has its input ended, and is not waited for;
/// `stop` reports how it ended.
pub struct Server {
    pub(crate) process: Process,
    sending: Mutex<Sending>,
    timeout: Mutex<Option<Duration>>,
    frame_limit: u32,
}

impl Server {
    /// Starts `program serve --folder folder`, and asks it for its version.
    pub fn start(program: impl AsRef<Path>, folder: impl AsRef<Path>) -> Result<Server, Error> {
        Server::start_with(program, folder, &Settings::default())
    }

    /// Starts a server as the settings have it.
    pub fn start_with(
        program: impl AsRef<Path>,
        folder: impl AsRef<Path>,
        settings: &Settings,
    ) -> Result<Server, Error> {
        let until = Instant::now() + settings.wait;
        loop {
            match Server::start_once(program.as_ref(), folder.as_ref(), settings) {
                // The status of a folder that is in use, or not there.
                Err(Error::Gone(ended))
                    if ended.status.and_then(|it| it.code()) == Some(1)
                        && Instant::now() < until =>
                {
                    thread::sleep(TRY_AGAIN)
                }
                started => return started,
            }
        }
    }

    fn start_once(program: &Path, folder: &Path, settings: &Settings) -> Result<Server, Error> {
        let mut command = Command::new(program);
        command.arg("serve").arg("--folder").arg(folder);
        command.arg("--blocks").arg(settings.blocks.to_string());
        if settings.unsynced_rolls {
            command.arg("--unsynced-rolls");
        }
        let (process, input) = Process::start(command).map_err(|error| {
            let why = format!("{}: {error}", program.display());
            Error::Start(io::Error::new(error.kind(), why))
        })?;
        let mut server = Server {
            process,
            sending: Mutex::new(Sending {
                input: Some(input),
                frames: Vec::new(),
                tag: 0,
            }),
            timeout: Mutex::new(settings.timeout),
            frame_limit: u32::MAX,
        };
        let Reply::Hello {
            version,
            frame_limit,
            ..
        } = server.hello()?
        else {
            return Err(Error::Form);
        };
        if version != VERSION {
            return Err(Error::Version(version));
        }
        server.frame_limit = frame_limit;
        server.process.program.pass_on();
        Ok(server)
    }

    /// Ends the input of the server, which closes its logs, and waits for its end. It is an error if its status is not 0: what
    /// it still had to write may be lost.
    pub fn stop(&self) -> Result<(), Error> {
        let flushed = self.flush();
        locked(&self.sending).input = None;
        let ended = self.process.wait(self.deadline())?;
        match ended.status {
            Some(status) if status.success() => flushed,
            _ => Err(Error::Gone(ended)),
        }
    }

    /// Ends the server as a stop of the machine would, as where it does not answer, and waits for its end.
    pub fn kill(&self) -> Result<Ended, Error> {
        self.process.program.kill()?;
        self.process.wait(None)
    }

    /// The number of the server's process.
    pub fn id(&self) -> u32 {
        self.process.program.id()
    }

    /// How long each call may take from now on.
    pub fn set_timeout(&self, timeout: Option<Duration>) {
        *locked(&self.timeout) = timeout;
    }

    /// Adds a log call to what is to be written, and returns its tag, for `answer`.
    pub fn send_log<I: AsRef<[u8]>>(&self, log: &Log, items: &[I]) -> u32 {
        self.request(2, |parts| {
            parts.log(log);
            parts.items(items);
        })
    }

    /// Adds any call on a log to what is to be written: its number, and its parts after the log's name.
    pub fn send(&self, number: u8, log: &Log, rest: impl FnOnce(&mut Vec<u8>)) -> u32 {
        self.request(number, |parts| {
            parts.log(log);
            rest(parts.bytes());
        })
    }

    /// Writes what is to be written.
    pub fn flush(&self) -> Result<(), Error> {
        let deadline = self.deadline();
        let sending = &mut *locked(&self.sending);
        let Some(input) = sending.input.as_mut() else {
            return Err(self.gone());
        };
        let mut at = 0;
        let written = self.write(input, &sending.frames, &mut at, deadline);
        sending.frames.drain(..at);
        written.map_err(|error| match error.kind() {
            ErrorKind::TimedOut => Error::TimedOut,
            _ => self.gone(),
        })
    }

    fn write(
        &self,
        input: &mut ChildStdin,
        frames: &[u8],
        at: &mut usize,
        deadline: Option<Instant>,
    ) -> io::Result<()> {
        while *at < frames.len() {
            match input.write(&frames[*at..]) {
                Ok(count) => *at += count,
                Err(error) if error.kind() == ErrorKind::Interrupted => {}
                Err(error) if error.kind() == ErrorKind::WouldBlock => {
                    self.process.make_room(input, deadline)?;
                }
                Err(error) => return Err(error),
            }
        }
        Ok(())
    }

    /// Waits for the answer of a call that was sent. Where the device failed it asks for the reason too.
    pub fn answer(&self, tag: u32) -> Result<Reply, Error> {
        let mut answer = self.answer_alone(tag);
        if let Err(error) = &mut answer {
            if error.is_fault() {
                let reason = self.answer_alone(self.request(19, |_| {}));
                if let Ok(Reply::Reason(Some(reason))) = reason {
                    error.note(&reason);
                }
            }
        }
        answer
    }

    fn answer_alone(&self, tag: u32) -> Result<Reply, Error> {
        let deadline = self.deadline();
        // A server that has ended may have answered before.
        match self.flush() {
            Err(Error::TimedOut) => self.process.answer(tag, Some(Instant::now())),
            Ok(()) | Err(_) => self.process.answer(tag, deadline),
        }
    }

    fn deadline(&self) -> Option<Instant> {
        locked(&self.timeout).and_then(|limit| Instant::now().checked_add(limit))
    }

    /// The end of the server, for a call that it did not take.
    fn gone(&self) -> Error {
        match self.process.wait(self.deadline()) {
            Ok(ended) => Error::Gone(Ended {
                may_be_done: false,
                ..ended
            }),
            Err(error) => error,
        }
    }

    /// Writes a request of which no answer comes.
    pub(crate) fn send_unanswered(
        &self,
        number: u8,
        rest: impl FnOnce(&mut Parts),
    ) -> Result<(), Error> {
        let mut parts = Parts::request(0, number);
        rest(&mut parts);
        let frame = parts.frame(self.frame_limit)?;
        locked(&self.sending).frames.extend(frame);
        self.flush()
    }

    pub(crate) fn call(
        &self,
        number: u8,
        log: &Log,
        rest: impl FnOnce(&mut Parts),
    ) -> Result<Reply, Error> {
        self.ask(number, |parts| {
            parts.log(log);
            rest(parts);
        })
    }

    pub(crate) fn ask(&self, number: u8, parts: impl FnOnce(&mut Parts)) -> Result<Reply, Error> {
        self.answer(self.request(number, parts))
    }

    /// Adds a request to what is to be written. One that no server could read has its answer at once.
    fn request(&self, number: u8, rest: impl FnOnce(&mut Parts)) -> u32 {
        let mut sending = locked(&self.sending);
        sending.tag = sending.tag.checked_add(1).unwrap_or(1);
        let tag = sending.tag;
        let mut parts = Parts::request(tag, number);
        rest(&mut parts);
        match (parts.frame(self.frame_limit), self.process.ended()) {
            (Ok(frame), None) => {
                self.process.await_answer(tag, None);
                sending.frames.extend(frame);
            }
            (Ok(_), Some(ended)) => self
                .process
                .await_answer(tag, Some(Err(Error::Gone(ended)))),
            (Err(error), _) => self.process.await_answer(tag, Some(Err(error))),
        }
        tag
    }
}
