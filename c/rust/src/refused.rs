use std::fmt;

use crate::numbers::*;
use crate::raw::name_of;

/// Why a call did nothing, and won't do otherwise if it is made again.
#[derive(Clone, Copy, Debug, PartialEq, Eq)]
#[non_exhaustive]
pub enum Refused {
    /// The transaction would touch more than 256 locations.
    TooLarge,
    /// A location that it would put has been put 2,147,483,647 times, and is never put again.
    Worn,
    /// The store has no descriptor left, after billions of tries.
    PoolWorn,
    /// The operations are no transaction of this store: the first that is wrong, from 0 on. `None` where each is right alone, but there are
    /// none of them, or more than 16.
    BadOps(Option<usize>),
    /// Operations that were to be viewed would put something.
    Puts,
    /// Operations that may put something were viewed 64 times in vain: what they read changed, or another caller had stopped amid its commit.
    Changed,
    /// It would wait, and the store's waits have ended.
    Closed,
    /// There is no memory for a store.
    NoMemory,
    /// A store of more than 65,536 locations, of no caller or of more than 64; or a structure of a size that there isn't, or that
    /// doesn't lie below location 65,536.
    BadSize,
    /// Another answer of `kcas.h`; none is known to come.
    Other(u32),
}

impl Refused {
    pub(crate) fn of(answer: u32) -> Refused {
        match answer {
            TOO_LARGE => Refused::TooLarge,
            WORN => Refused::Worn,
            POOL_WORN => Refused::PoolWorn,
            BAD_OPS => Refused::BadOps(None),
            PUTS => Refused::Puts,
            CHANGED => Refused::Changed,
            CLOSED => Refused::Closed,
            NO_MEMORY => Refused::NoMemory,
            BAD_SIZE => Refused::BadSize,
            other => Refused::Other(other),
        }
    }

    /// Its number in `kcas.h`.
    pub fn answer(self) -> u32 {
        match self {
            Refused::TooLarge => TOO_LARGE,
            Refused::Worn => WORN,
            Refused::PoolWorn => POOL_WORN,
            Refused::BadOps(_) => BAD_OPS,
            Refused::Puts => PUTS,
            Refused::Changed => CHANGED,
            Refused::Closed => CLOSED,
            Refused::NoMemory => NO_MEMORY,
            Refused::BadSize => BAD_SIZE,
            Refused::Other(answer) => answer,
        }
    }
}

impl fmt::Display for Refused {
    fn fmt(&self, f: &mut fmt::Formatter<'_>) -> fmt::Result {
        write!(f, "kcas: {}", name_of(self.answer()))?;
        match self {
            Refused::BadOps(Some(operation)) => write!(f, ", operation {operation}"),
            _ => Ok(()),
        }
    }
}

impl std::error::Error for Refused {}
