//! A server as a program that was started, and what it says on standard error.

use crate::{pipe, Ended};
use std::io::{self, Read, Write};
use std::process::{Child, ChildStderr, ChildStdin, ChildStdout, Command, ExitStatus, Stdio};
use std::sync::{Arc, Condvar, Mutex, MutexGuard, PoisonError};
use std::thread;
use std::time::Duration;

/// How many of the last words are kept.
const WORDS_BYTES: usize = 2048;
const LOOK_AGAIN: Duration = Duration::from_millis(1);
/// How long the end of standard error is waited for, which a child of the server may keep open.
const LAST_WORDS: Duration = Duration::from_secs(1);

/// What the server says on standard error.
#[derive(Default)]
struct Words {
    last: Vec<u8>,
    pass_on: bool,
    are_over: bool,
}

#[derive(Default)]
struct Errors {
    words: Mutex<Words>,
    are_over: Condvar,
}

/// A program that was started. A thread passes on what it says on standard error.
pub(crate) struct Program {
    child: Mutex<Child>,
    errors: Arc<Errors>,
}

/// The value behind a lock. A thread that panicked in between has left nothing half done.
pub(crate) fn locked<T>(mutex: &Mutex<T>) -> MutexGuard<'_, T> {
    mutex.lock().unwrap_or_else(PoisonError::into_inner)
}

impl Program {
    /// Starts a program, and returns it with its input and its output.
    pub(crate) fn start(mut command: Command) -> io::Result<(Program, ChildStdin, ChildStdout)> {
        let mut child = pipe::spare(&mut command)
            .stdin(Stdio::piped())
            .stdout(Stdio::piped())
            .stderr(Stdio::piped())
            .spawn()?;
        let (Some(input), Some(output), Some(pipe)) =
            (child.stdin.take(), child.stdout.take(), child.stderr.take())
        else {
            return Err(io::ErrorKind::BrokenPipe.into());
        };
        pipe::never_block(&input);
        let errors = Arc::new(Errors::default());
        let listens = Arc::clone(&errors);
        let listener = thread::Builder::new().name("dlog errors".to_owned());
        listener.spawn(move || listens.listen(pipe))?;
        let child = Mutex::new(child);
        Ok((Program { child, errors }, input, output))
    }

    pub(crate) fn id(&self) -> u32 {
        locked(&self.child).id()
    }

    pub(crate) fn kill(&self) -> io::Result<()> {
        locked(&self.child).kill()
    }

    /// Passes on what the program has said on standard error, and says from now on.
    pub(crate) fn pass_on(&self) {
        let mut words = locked(&self.errors.words);
        words.pass_on = true;
        let _ = io::stderr().write_all(&words.last);
    }

    /// Waits for the end of the program, which has ended its output.
    pub(crate) fn end(&self) -> Ended {
        let status = self.status();
        let words = locked(&self.errors.words);
        let waited = self
            .errors
            .are_over
            .wait_timeout_while(words, LAST_WORDS, |words| !words.are_over);
        let words = waited.unwrap_or_else(PoisonError::into_inner).0;
        Ended {
            status,
            words: String::from_utf8_lossy(&words.last).trim().to_owned(),
            may_be_done: true,
        }
    }

    fn status(&self) -> Option<ExitStatus> {
        loop {
            match locked(&self.child).try_wait() {
                Ok(Some(status)) => return Some(status),
                Ok(None) => {}
                Err(_) => return None,
            }
            thread::sleep(LOOK_AGAIN);
        }
    }
}

impl Errors {
    fn listen(&self, mut pipe: ChildStderr) {
        let mut part = [0; 1024];
        while let Ok(count @ 1..) = pipe.read(&mut part) {
            let mut words = locked(&self.words);
            if words.pass_on {
                let _ = io::stderr().write_all(&part[..count]);
            }
            words.last.extend(&part[..count]);
            let over = words.last.len().saturating_sub(WORDS_BYTES);
            words.last.drain(..over);
        }
        locked(&self.words).are_over = true;
        self.are_over.notify_all();
    }
}
