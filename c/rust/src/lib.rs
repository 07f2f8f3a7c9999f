//! Transactions on a store that threads share without a lock: safe calls over libkcas.
//!
//! A [`Layout`] lays structures; [`open`] opens a store of them, with a [`Caller`] for each thread; a caller commits operations, which all
//! happen at one moment, or none.
//!
//! ```
//! let mut layout = kcas::Layout::new();
//! let jobs = layout.queue(16)?;
//! let done = layout.location(0)?;
//! let mut callers = kcas::open(layout.values(), 2)?;
//! let mut worker = callers.pop().unwrap();
//! let mut foreman = callers.pop().unwrap();
//! let working = std::thread::spawn(move || worker.commit_waiting(&[jobs.deqw(), done.incr()]));
//! foreman.commit(&[jobs.enq(7)])?;
//! assert_eq!(working.join().unwrap()?[0], kcas::Reply::Value(7));
//! # Ok::<(), kcas::Refused>(())
//! ```
//!
//! A caller may be sent to another thread and is not shared, and each call takes it by `&mut`, so the compiler upholds what `kcas.h` asks
//! of a program. It is closed as it is dropped, and the store is freed with its last caller. What a thread did before a
//! commit that put something is seen by whoever reads what it put.

use std::cell::Cell;
use std::hint::spin_loop;
use std::marker::PhantomData;
use std::sync::atomic::{AtomicBool, Ordering};
use std::sync::{Arc, Condvar, Mutex};
use std::time::{Duration, Instant};

mod numbers;
mod raw;
mod refused;
mod structures;

pub use numbers::MOST_OPS;
pub use refused::Refused;
pub use structures::{
    say, Cache, Function, Layout, Location, Mvar, Op, Promise, Queue, Relation, Stack, Table, Total,
};

use numbers::*;
use raw::{Handle, RawReply, Seen};

/// The version of the library that the program runs with, as "0.9.0".
pub fn version() -> &'static str {
    raw::version()
}

/// What an operation replied.
#[derive(Clone, Copy, Debug, Default, PartialEq, Eq)]
pub enum Reply {
    /// It didn't run.
    #[default]
    Nothing,
    /// It ran, and has nothing to say.
    Unit,
    Value(u32),
    Bool(bool),
    Empty,
    Full,
}

impl Reply {
    fn of(raw: RawReply) -> Reply {
        match raw.kind {
            UNIT => Reply::Unit,
            VALUE => Reply::Value(raw.value),
            BOOL => Reply::Bool(raw.value != 0),
            EMPTY => Reply::Empty,
            FULL => Reply::Full,
            _ => Reply::Nothing,
        }
    }

    /// The number that it replied, if it did.
    pub fn value(self) -> Option<u32> {
        match self {
            Reply::Value(value) => Some(value),
            _ => None,
        }
    }
}

/// The replies of a transaction: first those of the operations that ran, in order.
pub type Replies = [Reply; MOST_OPS];

// Where a caller sleeps that hangs. A signal is set in the store before its seat is woken, and is looked for with the seat locked: so no
// wake is lost.
#[derive(Default)]
struct Seat {
    looking: Mutex<()>,
    woken: Condvar,
}

impl Seat {
    fn wake(&self) {
        drop(self.looking.lock().expect("no holder panics"));
        self.woken.notify_one();
    }
}

// The seats of a store's callers, and whether its waits have ended.
struct Seats {
    each: Vec<Seat>,
    ended: AtomicBool,
}

// Each call writes to its handle, so handles of two threads may not lie in one line of a cache.
#[repr(align(128))]
struct Alone(Handle);

/// One caller of a store.
pub struct Caller {
    handle: Box<Alone>,
    number: usize,
    seats: Arc<Seats>,
    _one_thread: PhantomData<Cell<()>>,
}

// The handle holds all that it reaches, and the library's part of it may be used by any one thread.
unsafe impl Send for Caller {}

impl Drop for Caller {
    fn drop(&mut self) {
        unsafe { raw::kcas_close(&mut self.handle.0) };
    }
}

/// A store with these values, at most 65,536, and so many callers of it, 1 to 64.
pub fn open(values: &[u32], callers: usize) -> Result<Vec<Caller>, Refused> {
    let mut handles: Vec<Handle> = (0..callers).map(|_| Handle::CLOSED).collect();
    match unsafe { raw::kcas_open(values.as_ptr(), values.len(), handles.as_mut_ptr(), callers) } {
        DONE => {
            let seats = Arc::new(Seats {
                each: (0..callers).map(|_| Seat::default()).collect(),
                ended: AtomicBool::new(false),
            });
            let caller = |mut handle| Caller {
                number: unsafe { raw::kcas_number(&mut handle) } as usize,
                handle: Box::new(Alone(handle)),
                seats: seats.clone(),
                _one_thread: PhantomData,
            };
            Ok(handles.into_iter().map(caller).collect())
        }
        answer => Err(Refused::of(answer)),
    }
}

impl Caller {
    /// The replies of the operations that ran, or `None` where the transaction would wait.
    pub fn commit(&mut self, ops: &[Op]) -> Result<Option<Replies>, Refused> {
        let mut replies = [RawReply::default(); MOST_OPS];
        loop {
            match self.try_once(ops, &mut replies) {
                DONE => return Ok(Some(replies.map(Reply::of))),
                LATER => return Ok(None),
                LOST | BUSY => spin_loop(),
                BAD_OPS => return Err(self.bad_ops(ops)),
                answer => return Err(Refused::of(answer)),
            }
        }
    }

    // One try, and whose hangs it ended are woken.
    fn try_once(&mut self, ops: &[Op], replies: &mut [RawReply; MOST_OPS]) -> u32 {
        let mut wakes = 0;
        let handle = &mut self.handle.0;
        let (first, room) = (replies.as_mut_ptr(), replies.len());
        let answer =
            unsafe { raw::kcas_try(handle, ops.as_ptr(), ops.len(), first, room, &mut wakes) };
        self.wake(wakes);
        answer
    }

    /// The replies of operations that put nothing, as of one moment, or `None` where they would wait. Refused as [`Refused::Puts`] where they
    /// would put something. No other caller loses by a view; but behind eight in vain operations that never put are committed, with an
    /// entry, and may be refused as [`Refused::PoolWorn`], and others are refused as [`Refused::Changed`] behind 64.
    pub fn look(&mut self, ops: &[Op]) -> Result<Option<Replies>, Refused> {
        let mut replies = [RawReply::default(); MOST_OPS];
        let may_commit = ops.iter().all(Op::only_reads);
        // A view helps nobody who stands in its way; a commit does.
        for views in 0.. {
            if views == 64 && !may_commit {
                break;
            }
            let answer = if views < 8 || !may_commit {
                let handle = &mut self.handle.0;
                let (first, room) = (replies.as_mut_ptr(), replies.len());
                unsafe { raw::kcas_view(handle, ops.as_ptr(), ops.len(), first, room) }
            } else {
                self.try_once(ops, &mut replies)
            };
            match answer {
                DONE => return Ok(Some(replies.map(Reply::of))),
                LATER => return Ok(None),
                CHANGED | LOST | BUSY => spin_loop(),
                BAD_OPS => return Err(self.bad_ops(ops)),
                answer => return Err(Refused::of(answer)),
            }
        }
        Err(Refused::Changed)
    }

    /// The same, and it waits where it would have to.
    pub fn commit_waiting(&mut self, ops: &[Op]) -> Result<Replies, Refused> {
        loop {
            if let Some(replies) = self.commit_before(ops, None)? {
                return Ok(replies);
            }
        }
    }

    /// The same, and it waits so long at most: `None` where it would still wait then.
    pub fn commit_timeout(
        &mut self,
        ops: &[Op],
        limit: Duration,
    ) -> Result<Option<Replies>, Refused> {
        match Instant::now().checked_add(limit) {
            Some(deadline) => self.commit_before(ops, Some(deadline)),
            None => self.commit_waiting(ops).map(Some),
        }
    }

    fn commit_before(
        &mut self,
        ops: &[Op],
        deadline: Option<Instant>,
    ) -> Result<Option<Replies>, Refused> {
        loop {
            let tried = self.commit(ops)?;
            if tried.is_some() || deadline.is_some_and(|deadline| Instant::now() >= deadline) {
                return Ok(tried);
            }
            if self.seats.ended.load(Ordering::SeqCst) {
                return Err(Refused::Closed);
            }
            self.hang(deadline);
        }
    }

    // Sleeps until something changes of what the last try read, or the deadline is there.
    fn hang(&mut self, deadline: Option<Instant>) {
        let handle: *mut Handle = &mut self.handle.0;
        let mut step = unsafe { raw::kcas_hang(handle) };
        while step == GOING {
            step = unsafe { raw::kcas_hang_step(handle) };
        }
        if step != HUNG {
            return;
        }
        let seat = &self.seats.each[self.number];
        let mut looking = seat.looking.lock().expect("no holder panics");
        while unsafe { raw::kcas_signalled(handle) } == QUIET
            && !self.seats.ended.load(Ordering::SeqCst)
        {
            looking =
                match deadline.map(|deadline| deadline.saturating_duration_since(Instant::now())) {
                    Some(Duration::ZERO) => break,
                    Some(left) => {
                        seat.woken
                            .wait_timeout(looking, left)
                            .expect("no holder panics")
                            .0
                    }
                    None => seat.woken.wait(looking).expect("no holder panics"),
                };
        }
        drop(looking);
        step = unsafe { raw::kcas_leave(handle) };
        while step == LEAVING {
            step = unsafe { raw::kcas_hang_step(handle) };
        }
    }

    /// Commits these operations where all that the last commit read has still the values that it had then, and else `None`: then look again,
    /// and compute anew. So one looks by `commit` or `commit_waiting`, computes, and acts by this. Refused as
    /// [`Refused::BadOps`] where reads and operations are more than 16 together, or there is an alternative among them.
    pub fn commit_as_seen(&mut self, ops: &[Op]) -> Result<Option<Replies>, Refused> {
        let mut seen = [Seen::default(); MOST_OPS + 1];
        let reads = unsafe { raw::kcas_reads(&mut self.handle.0, seen.as_mut_ptr(), seen.len()) };
        if reads + ops.len() > MOST_OPS || ops.iter().any(Op::begins_an_alternative) {
            return Err(Refused::BadOps(None));
        }
        let unchanged = seen[..reads]
            .iter()
            .map(|it| Location::at(it.location).check(Relation::Eq, it.value));
        let behind = ops
            .iter()
            .enumerate()
            .map(|(place, op)| op.moved(place, reads));
        let all: Vec<Op> = unchanged.chain(behind).collect();
        let told = self.commit(&all)?;
        Ok(told
            .map(|told| std::array::from_fn(|i| told.get(reads + i).copied().unwrap_or_default())))
    }

    /// Ends all waits on this store: who waits, or would, is refused as [`Refused::Closed`] from now on. What needn't wait is done as before.
    pub fn end(&self) {
        self.seats.ended.store(true, Ordering::SeqCst);
        for seat in &self.seats.each {
            seat.wake();
        }
    }

    /// How much of the life of a location is gone: how often it has been put, of 2,147,483,647 times. Refused as [`Refused::BadOps`] for one
    /// outside of the store.
    pub fn life(&mut self, location: Location) -> Result<u32, Refused> {
        Ok(self.seen(location)?.1)
    }

    /// One operation, and its reply.
    pub fn one(&mut self, op: Op) -> Result<Option<Reply>, Refused> {
        Ok(self.commit(&[op])?.map(|replies| replies[0]))
    }

    /// Adds to one location, which wraps, and answers the value before. It costs less than an operation.
    pub fn add(&mut self, location: Location, number: u32) -> Result<u32, Refused> {
        let (mut before, mut wakes) = (0, 0);
        loop {
            let handle = &mut self.handle.0;
            let answer =
                unsafe { raw::kcas_add(handle, location.base(), number, &mut before, &mut wakes) };
            self.wake(wakes);
            match answer {
                DONE => return Ok(before),
                LOST | BUSY => spin_loop(),
                answer => return Err(Refused::of(answer)),
            }
        }
    }

    /// The value of a location, without a transaction.
    pub fn read(&mut self, location: Location) -> Result<u32, Refused> {
        Ok(self.seen(location)?.0)
    }

    // The value of a location, and its version.
    fn seen(&mut self, location: Location) -> Result<(u32, u32), Refused> {
        let (mut value, mut version) = (0, 0);
        loop {
            match unsafe {
                raw::kcas_read(
                    &mut self.handle.0,
                    location.base(),
                    &mut value,
                    &mut version,
                )
            } {
                DONE => return Ok((value, version)),
                BUSY => spin_loop(),
                answer => return Err(Refused::of(answer)),
            }
        }
    }

    fn bad_ops(&mut self, ops: &[Op]) -> Refused {
        let mut wakes = 0;
        let at =
            unsafe { raw::kcas_bad_op(&mut self.handle.0, ops.as_ptr(), ops.len(), &mut wakes) };
        self.wake(wakes);
        Refused::BadOps((at < ops.len()).then_some(at))
    }

    // Wakes those whose hangs a try has ended.
    fn wake(&self, mut wakes: u64) {
        while wakes != 0 {
            self.seats.each[wakes.trailing_zeros() as usize].wake();
            wakes &= wakes - 1;
        }
    }
}
