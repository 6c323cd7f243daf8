//! Cilweddor, the shared vector machine, for Rust: a binding of the proved library, with no dependency.
//!
//! A [`Machine`] has 1 to 64 callers. A [`Caller`] goes to a thread, which leaves calls by it and asks what became of them; whichever
//! caller steps serves what all have left. A call changes the caller that it is made by, so it takes `&mut self`: no caller is in two
//! calls at once, and none is used after it was closed.
//!
//! ```
//! use cilweddor::{Machine, Reply};
//!
//! let mut callers = Machine::open(2, 1000).unwrap();
//! let mut second = callers.pop().unwrap();
//! let mut first = callers.pop().unwrap();
//! let worker = std::thread::spawn(move || {
//!     second.set_ints("b", &[10, 20, 30]).unwrap();
//!     second
//! });
//! first.set_ints("a", &[1, 2, 3]).unwrap();
//! let second = worker.join().unwrap();
//! first.call("c = add_wuz a b").unwrap();
//! assert_eq!(first.call("get c").unwrap(), Reply::Ints(vec![11, 22, 33]));
//! assert!(second.close().unwrap().is_none());
//! let closed = first.close().unwrap().unwrap();
//! assert_eq!((closed.history, closed.audited), (4, true));
//! ```
//!
//! A caller that was closed is gone:
//!
//! ```compile_fail,E0382
//! let mut callers = cilweddor::Machine::open(1, 1000).unwrap();
//! let caller = callers.pop().unwrap();
//! caller.close().unwrap();
//! caller.close().unwrap();
//! ```
//!
//! and no caller is in two calls at once:
//!
//! ```compile_fail,E0499
//! let mut callers = cilweddor::Machine::open(1, 1000).unwrap();
//! let mut caller = callers.pop().unwrap();
//! std::thread::scope(|scope| {
//!     scope.spawn(|| caller.call("a = z 1").unwrap());
//!     scope.spawn(|| caller.call("b = z 2").unwrap());
//! });
//! ```

mod error;
mod raw;
mod reply;

pub use error::Error;
pub use reply::{Fault, Reply};

use raw::{Answer, Status};
use std::hint;
use std::thread;

/// How many turns a caller that found another with the book lets pass before it tries again: at first, and at most.
const FIRST_PAUSE: u32 = 512;
const LAST_PAUSE: u32 = 2048;

/// A machine, from which its callers come.
pub struct Machine;

impl Machine {
    /// A machine of so many callers, whose memory has room for so many items in all: its callers, in the order of their numbers. It lasts
    /// until the last of them is closed or dropped.
    pub fn open(callers: usize, room: u64) -> Result<Vec<Caller>, Error> {
        let mut raw: Vec<raw::Caller> = (0..callers).map(|_| raw::Caller::shut()).collect();
        let status = unsafe { raw::cvl_open(room, raw.as_mut_ptr(), raw.len()) };
        Error::check(status)?;
        Ok(raw.into_iter().map(|raw| Caller { raw }).collect())
    }
}

/// What became of what a caller left.
#[derive(Clone, Copy, Debug, PartialEq, Eq)]
pub enum Told {
    /// Nothing was left.
    Idle,
    /// Nothing yet.
    Waiting,
    /// The call was answered: [`Caller::reply`] 0.
    Answered {
        /// Its place in the history, from 0.
        place: u64,
    },
    /// The block was answered: [`Caller::reply`] 0 to `replies` - 1.
    AnsweredBlock {
        /// The place in the history of its first call, from 0.
        place: u64,
        /// How many calls it has.
        replies: u64,
    },
}

/// What a machine came to.
#[derive(Clone, Copy, Debug, PartialEq, Eq)]
pub struct Closed {
    /// How many calls its history has.
    pub history: u64,
    /// Whether the history, done again, gave the memory. Not where memory was wanted for that.
    pub audited: bool,
}

/// How a caller served: so many calls and blocks, in so many waves, by so many runs of kernels.
#[derive(Clone, Copy, Debug, PartialEq, Eq)]
pub struct Served {
    /// Of which a block counts as one.
    pub calls: u64,
    pub waves: u64,
    pub kernels: u64,
}

/// A call that was prepared with a caller, and is forgotten with it.
#[derive(Clone, Copy, Debug, PartialEq, Eq)]
pub struct Prepared(u64);

/// What one thread calls a machine with.
pub struct Caller {
    raw: raw::Caller,
}

// The library proves that a caller may go to another thread; it is in one call at a time, since each takes `&mut self`.
unsafe impl Send for Caller {}

impl Caller {
    /// Leaves the call of a line, without running it.
    pub fn post(&mut self, line: &str) -> Result<(), Error> {
        Error::check(unsafe { raw::cvl_post(&mut self.raw, line.as_ptr(), line.len()) })
    }

    /// Leaves the calls of the lines of a text as a block, which takes effect whole or not at all.
    pub fn post_block(&mut self, text: &str) -> Result<(), Error> {
        Error::check(unsafe { raw::cvl_post_block(&mut self.raw, text.as_ptr(), text.len()) })
    }

    /// Leaves the call that sets a name to these integers.
    pub fn post_ints(&mut self, name: &str, items: &[i64]) -> Result<(), Error> {
        Error::check(unsafe {
            raw::cvl_post_ints(&mut self.raw, name.as_ptr(), name.len(), items.as_ptr(), items.len())
        })
    }

    /// Leaves the call that sets a name to these truth values.
    pub fn post_bools(&mut self, name: &str, items: &[bool]) -> Result<(), Error> {
        Error::check(unsafe {
            raw::cvl_post_bools(&mut self.raw, name.as_ptr(), name.len(), items.as_ptr(), items.len())
        })
    }

    /// Leaves the block of two calls that sets a name to the segment list of these lengths. Its second reply tells.
    pub fn post_lengths(&mut self, name: &str, lengths: &[i64]) -> Result<(), Error> {
        Error::check(unsafe {
            raw::cvl_post_lengths(&mut self.raw, name.as_ptr(), name.len(), lengths.as_ptr(), lengths.len())
        })
    }

    /// Leaves the call that asks for the value of a name.
    pub fn post_get(&mut self, name: &str) -> Result<(), Error> {
        Error::check(unsafe { raw::cvl_post_get(&mut self.raw, name.as_ptr(), name.len()) })
    }

    /// Keeps the call of a line, to be left again and again without reading it.
    pub fn prepare(&mut self, line: &str) -> Result<Prepared, Error> {
        let mut number = 0;
        Error::check(unsafe { raw::cvl_prepare(&mut self.raw, line.as_ptr(), line.len(), &mut number) })?;
        Ok(Prepared(number))
    }

    /// Leaves a prepared call.
    pub fn post_prepared(&mut self, call: Prepared) -> Result<(), Error> {
        Error::check(unsafe { raw::cvl_post_prepared(&mut self.raw, call.0) })
    }

    /// Leaves prepared calls as a block.
    pub fn post_prepared_block(&mut self, calls: &[Prepared]) -> Result<(), Error> {
        let numbers: Vec<u64> = calls.iter().map(|call| call.0).collect();
        Error::check(unsafe { raw::cvl_post_prepared_block(&mut self.raw, numbers.as_ptr(), numbers.len()) })
    }

    /// Begins the call of a line: it runs at once if no other caller has the book, and else it is left, and this tells
    /// [`Told::Waiting`]. It does not wait.
    pub fn begin(&mut self, line: &str) -> Result<Told, Error> {
        let mut answer = Answer::default();
        let status = unsafe { raw::cvl_begin(&mut self.raw, line.as_ptr(), line.len(), &mut answer) };
        told(status, answer)
    }

    /// Begins a prepared call.
    pub fn begin_prepared(&mut self, call: Prepared) -> Result<Told, Error> {
        let mut answer = Answer::default();
        let status = unsafe { raw::cvl_begin_prepared(&mut self.raw, call.0, &mut answer) };
        told(status, answer)
    }

    /// Serves what all callers have left. None where another caller does just then. It does not wait.
    pub fn serve(&mut self) -> Result<Option<Served>, Error> {
        let mut served = Served { calls: 0, waves: 0, kernels: 0 };
        let mut told = raw::Served { calls: 0, waves: 0, kernels: 0 };
        let status = unsafe { raw::cvl_serve(&mut self.raw, &mut told) };
        Error::check(status)?;
        (served.calls, served.waves, served.kernels) = (told.calls, told.waves, told.kernels);
        Ok((status == raw::SERVED).then_some(served))
    }

    /// What became of what was left. It does not wait.
    pub fn poll(&mut self) -> Result<Told, Error> {
        let mut answer = Answer::default();
        let status = unsafe { raw::cvl_poll(&mut self.raw, &mut answer) };
        told(status, answer)
    }

    /// Serves if it can, and asks. It does not wait.
    pub fn step(&mut self) -> Result<Told, Error> {
        let mut answer = Answer::default();
        let status = unsafe { raw::cvl_step(&mut self.raw, &mut answer) };
        told(status, answer)
    }

    /// Asks and serves until what was left is answered.
    pub fn wait(&mut self) -> Result<Told, Error> {
        self.wait_after(0)
    }

    /// Lets so many turns pass, then asks and serves until what was left is answered.
    fn wait_after(&mut self, mut turns: u32) -> Result<Told, Error> {
        loop {
            pause(turns);
            match self.poll()? {
                Told::Waiting => {}
                told => return Ok(told),
            }
            turns = match self.serve()? {
                Some(_) => 0,
                None => (2 * turns).clamp(FIRST_PAUSE, LAST_PAUSE),
            };
        }
    }

    /// The reply of a number, of those that were taken last.
    pub fn reply(&mut self, number: u64) -> Option<Reply> {
        let mut answer = Answer::default();
        let status = unsafe { raw::cvl_reply(&mut self.raw, number, &mut answer) };
        (status == raw::OK).then(|| Reply::read(&mut self.raw, number, answer))
    }

    /// The text of a reply, as the program writes it. Empty where there is no reply of this number.
    pub fn text(&mut self, number: u64) -> Result<String, Error> {
        let mut length = 0;
        Error::check(unsafe { raw::cvl_text(&mut self.raw, number, [].as_mut_ptr(), 0, &mut length) })?;
        let mut text = vec![0; length as usize];
        Error::check(unsafe { raw::cvl_text(&mut self.raw, number, text.as_mut_ptr(), text.len(), &mut length) })?;
        Ok(text.into_iter().map(char::from).collect())
    }

    /// Begins the call of a line and waits for its reply. A fault is an error.
    pub fn call(&mut self, line: &str) -> Result<Reply, Error> {
        let begun = self.begin(line)?;
        self.end(begun)
    }

    /// The same of a prepared call.
    pub fn call_prepared(&mut self, call: Prepared) -> Result<Reply, Error> {
        let begun = self.begin_prepared(call)?;
        self.end(begun)
    }

    fn end(&mut self, begun: Told) -> Result<Reply, Error> {
        if begun == Told::Waiting {
            self.wait_after(FIRST_PAUSE)?;
        }
        self.first_reply()
    }

    /// Sets a name to these integers, and waits.
    pub fn set_ints(&mut self, name: &str, items: &[i64]) -> Result<(), Error> {
        self.post_ints(name, items)?;
        self.answer().map(drop)
    }

    /// Waits for the reply to the call that was left. A fault is an error.
    pub fn answer(&mut self) -> Result<Reply, Error> {
        self.wait()?;
        self.first_reply()
    }

    fn first_reply(&mut self) -> Result<Reply, Error> {
        match self.reply(0) {
            Some(Reply::Fault(fault)) => Err(Error::Fault(fault)),
            Some(reply) => Ok(reply),
            None => Err(Error::NoReply),
        }
    }

    /// The length of the history, all of which the caller has then seen.
    pub fn look(&mut self) -> u64 {
        unsafe { raw::cvl_look(&mut self.raw) }
    }

    /// Gives the caller up. With the last one of a machine the machine goes, and it is told what it came to.
    pub fn close(mut self) -> Result<Option<Closed>, Error> {
        self.shut()
    }

    fn shut(&mut self) -> Result<Option<Closed>, Error> {
        let mut closed = raw::Closed::default();
        let status = unsafe { raw::cvl_close(&mut self.raw, &mut closed) };
        let told = Closed { history: closed.history, audited: closed.audited };
        match status {
            raw::CLOSED | raw::NO_MEMORY => Ok(Some(told)),
            raw::LEFT_OTHERS => Ok(None),
            raw::UNFINISHED => Err(Error::Unfinished),
            status => Err(Error::of(status)),
        }
    }
}

impl Drop for Caller {
    /// A caller that was not closed is given up.
    fn drop(&mut self) {
        if self.raw.is_open() {
            let _ = self.shut();
        }
    }
}

/// Lets so many turns pass, and after the longest pause the processor goes to others.
fn pause(turns: u32) {
    (0..turns).for_each(|_| hint::spin_loop());
    if turns == LAST_PAUSE {
        thread::yield_now();
    }
}

fn told(status: Status, answer: Answer) -> Result<Told, Error> {
    match status {
        raw::IDLE => Ok(Told::Idle),
        raw::WAITING => Ok(Told::Waiting),
        raw::ANSWERED => Ok(Told::Answered { place: answer.place }),
        raw::ANSWERED_BLOCK => Ok(Told::AnsweredBlock { place: answer.place, replies: answer.replies }),
        status => Err(Error::of(status)),
    }
}
