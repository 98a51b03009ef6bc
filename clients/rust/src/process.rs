//! A server as a process: who waits for which answer, and how it ended.

use crate::program::{locked, Program};
use crate::reading::Reader;
use crate::{pipe, Answer, Ended, Error, Notice, Reply};
use std::collections::{HashMap, VecDeque};
use std::hash::{BuildHasherDefault, Hasher};
use std::io::{self, Read};
use std::os::fd::{AsRawFd, RawFd};
use std::process::{ChildStdin, ChildStdout, Command};
use std::sync::{Mutex, MutexGuard, TryLockError};
use std::thread::{self, Thread};
use std::time::{Duration, Instant};

/// How many bytes are read at a time.
const READ_BYTES: usize = 65_536;
const LOOK_AGAIN: Duration = Duration::from_millis(1);
/// How often a thread that does not read looks whether it has to, so that the server goes on.
const LOOK: Duration = Duration::from_millis(50);

/// Tags are numbers in order, which are spread by a multiplication.
#[derive(Default)]
struct TagHasher(u64);

impl Hasher for TagHasher {
    fn write_u32(&mut self, tag: u32) {
        self.0 = u64::from(tag).wrapping_mul(0x9e37_79b9_7f4a_7c15);
    }

    fn write(&mut self, bytes: &[u8]) {
        bytes.iter().for_each(|byte| self.write_u32((*byte).into()));
    }

    fn finish(&self) -> u64 {
        self.0
    }
}

#[derive(Default)]
struct State {
    /// The calls that were sent, each with its answer once it is there.
    calls: HashMap<u32, Option<Result<Reply, Error>>, BuildHasherDefault<TagHasher>>,
    /// The threads that wait while another one reads, by their calls.
    waiters: Vec<(u32, Thread)>,
    notices: VecDeque<Notice>,
    ended: Option<Ended>,
}

/// Where answers are read, and what was read of a frame that is not whole.
struct Output {
    pipe: ChildStdout,
    bytes: Vec<u8>,
    /// How many of the bytes were read.
    have: usize,
}

/// A server that runs, in a session of its own, so that no signal to the group of its parent ends it. Of the threads that wait
/// for answers one reads, and hands the others theirs.
pub(crate) struct Process {
    pub(crate) program: Program,
    output: Mutex<Output>,
    output_fd: RawFd,
    state: Mutex<State>,
}

impl Process {
    /// Starts a program, and returns it and its input.
    pub(crate) fn start(command: Command) -> io::Result<(Process, ChildStdin)> {
        let (program, input, output) = Program::start(command)?;
        let process = Process {
            program,
            output_fd: output.as_raw_fd(),
            output: Mutex::new(Output {
                pipe: output,
                bytes: vec![0; READ_BYTES],
                have: 0,
            }),
            state: Mutex::default(),
        };
        Ok((process, input))
    }

    /// Notes that the answer of a call is awaited, or has it at once.
    pub(crate) fn await_answer(&self, tag: u32, answer: Option<Result<Reply, Error>>) {
        locked(&self.state).calls.insert(tag, answer);
    }

    /// Waits for the answer of a call.
    pub(crate) fn answer(&self, tag: u32, deadline: Option<Instant>) -> Result<Reply, Error> {
        loop {
            if let Some(answer) = self.take_answer(tag, deadline) {
                return answer;
            }
            if self.read_for(tag, deadline) {
                continue;
            }
            locked(&self.state).waiters.push((tag, thread::current()));
            if !self.read_for(tag, deadline) && !self.is_settled(tag) {
                match deadline {
                    None => thread::park(),
                    Some(_) => thread::park_timeout(pipe::left(deadline)),
                }
            }
            locked(&self.state).waiters.retain(|(its, _)| *its != tag);
        }
    }

    /// The outcome of a call, if it is there or the time is over.
    fn take_answer(&self, tag: u32, deadline: Option<Instant>) -> Option<Result<Reply, Error>> {
        let mut state = locked(&self.state);
        let is_late = || deadline.is_some_and(|deadline| deadline <= Instant::now());
        match state.calls.get(&tag) {
            None => return Some(Err(Error::NoCall(tag))),
            Some(None) if state.ended.is_none() && !is_late() => return None,
            Some(_) => {}
        }
        let answer = state.calls.remove(&tag).flatten();
        let ended = state.ended.clone();
        drop(state);
        Some(match (answer, ended) {
            (Some(answer), _) => answer.and_then(Reply::into_result),
            (None, Some(ended)) => Err(Error::Gone(ended)),
            (None, None) => {
                self.wake_one();
                Err(Error::TimedOut)
            }
        })
    }

    fn is_settled(&self, tag: u32) -> bool {
        let state = locked(&self.state);
        state.ended.is_some() || !matches!(state.calls.get(&tag), Some(None))
    }

    /// Reads until the answer of a call is there, if no other thread reads, and then gives another one its turn.
    fn read_for(&self, tag: u32, deadline: Option<Instant>) -> bool {
        let Some(mut output) = self.try_read() else {
            return false;
        };
        while !self.is_settled(tag) && self.read_some(&mut output, deadline) {}
        drop(output);
        self.wake_one();
        true
    }

    fn try_read(&self) -> Option<MutexGuard<'_, Output>> {
        match self.output.try_lock() {
            Ok(output) => Some(output),
            Err(TryLockError::Poisoned(poisoned)) => Some(poisoned.into_inner()),
            Err(TryLockError::WouldBlock) => None,
        }
    }

    /// Gives one of those that wait its turn to read. One that has its answer would read no more.
    fn wake_one(&self) {
        let state = locked(&self.state);
        let waits = |tag| matches!(state.calls.get(tag), Some(None));
        if let Some((_, thread)) = state.waiters.iter().find(|(tag, _)| waits(tag)) {
            thread.unpark();
        }
    }

    /// Reads what there is, once there is something. Reports whether it was in time.
    fn read_some(&self, output: &mut Output, deadline: Option<Instant>) -> bool {
        if deadline.is_some() {
            let mut reads = [self.reads()];
            if !pipe::wait(&mut reads, pipe::left(deadline)).unwrap_or(true) {
                return false;
            }
        }
        if output.have == output.bytes.len() {
            output.bytes.resize(2 * output.have, 0);
        }
        match output.pipe.read(&mut output.bytes[output.have..]) {
            Ok(count @ 1..) => {
                output.have += count;
                self.take_frames(output);
            }
            Err(error) if error.kind() == io::ErrorKind::Interrupted => {}
            Ok(_) | Err(_) => self.end(),
        }
        true
    }

    fn reads(&self) -> pipe::Pipe {
        pipe::Pipe {
            fd: self.output_fd,
            events: pipe::READS,
            came: 0,
        }
    }

    fn take_frames(&self, output: &mut Output) {
        let mut state = locked(&self.state);
        let mut unread = &output.bytes[..output.have];
        while let Some((length, rest)) = unread.split_first_chunk() {
            let length = u32::from_be_bytes(*length) as usize;
            let Some(text) = rest.get(..length) else {
                break;
            };
            state.hand_over(text);
            unread = &rest[length..];
        }
        let left = unread.len();
        output.bytes.copy_within(output.have - left..output.have, 0);
        output.have = left;
    }

    /// Notes how the server, which has ended its output, has ended.
    fn end(&self) {
        let ended = self.program.end();
        let mut state = locked(&self.state);
        state.ended.get_or_insert(ended);
        state.waiters.iter().for_each(|(_, thread)| thread.unpark());
    }

    /// Waits until the input, which was full, can be written to, and reads meanwhile, so that the server goes on.
    pub(crate) fn make_room(
        &self,
        input: &ChildStdin,
        deadline: Option<Instant>,
    ) -> io::Result<()> {
        let writes = pipe::Pipe {
            fd: input.as_raw_fd(),
            events: pipe::WRITES,
            came: 0,
        };
        let mut pipes = [writes, self.reads()];
        let mut is_ready = false;
        while !is_ready {
            if pipe::left(deadline).is_zero() {
                return Err(io::ErrorKind::TimedOut.into());
            }
            let output = self.try_read();
            let count = 1 + usize::from(output.is_some());
            pipe::wait(&mut pipes[..count], LOOK.min(pipe::left(deadline)))?;
            is_ready = pipes[0].came != 0;
            if let Some(mut output) = output {
                if !is_ready && pipes[1].came != 0 {
                    self.read_some(&mut output, deadline);
                }
                drop(output);
                self.wake_one();
            }
        }
        Ok(())
    }

    pub(crate) fn notices(&self) -> Vec<Notice> {
        locked(&self.state).notices.drain(..).collect()
    }

    /// How the server has ended, for a call that was not sent.
    pub(crate) fn ended(&self) -> Option<Ended> {
        let ended = locked(&self.state).ended.clone();
        ended.map(|ended| Ended {
            may_be_done: false,
            ..ended
        })
    }

    /// Waits for the end of the server.
    pub(crate) fn wait(&self, deadline: Option<Instant>) -> Result<Ended, Error> {
        loop {
            if let Some(ended) = &locked(&self.state).ended {
                return Ok(ended.clone());
            }
            if pipe::left(deadline).is_zero() {
                return Err(Error::TimedOut);
            }
            match self.try_read() {
                Some(mut output) => {
                    self.read_some(&mut output, deadline);
                    drop(output);
                    self.wake_one();
                }
                None => thread::sleep(LOOK_AGAIN),
            }
        }
    }
}

impl State {
    fn hand_over(&mut self, text: &[u8]) {
        let (tag, answer) = match Reader::new(text).answer() {
            Some(Answer::Notice(notice)) => return self.notices.push_back(notice),
            Some(Answer::Reply(tag, reply)) => (tag, Ok(reply)),
            None => match text.first_chunk() {
                Some(tag) => (u32::from_be_bytes(*tag), Err(Error::Form)),
                None => return,
            },
        };
        if let Some(call) = self.calls.get_mut(&tag) {
            *call = Some(answer);
        }
        if let Some((_, thread)) = self.waiters.iter().find(|(its, _)| *its == tag) {
            thread.unpark();
        }
    }
}
