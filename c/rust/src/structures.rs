//! Structures, and their operations.

use crate::numbers::*;
use crate::raw::{kcas_cells, kcas_lay};
use crate::refused::Refused;

#[repr(C)]
#[derive(Clone, Copy, Debug, Default, PartialEq, Eq)]
pub(crate) struct Object {
    pub kind: u32,
    pub base: u32,
    pub capacity: u32,
    pub buckets: u32,
}

/// An operation on a structure, made by a method of that structure. "Waits" says when a transaction with it would wait.
#[repr(C)]
#[derive(Clone, Copy, Debug, PartialEq, Eq)]
pub struct Op {
    verb: u32,
    mark: u32,
    on: Object,
    a: u32,
    b: u32,
}

impl Op {
    fn new(on: Object, verb: u32, a: u32, b: u32) -> Op {
        Op {
            verb,
            mark: NEXT,
            on,
            a,
            b,
        }
    }

    /// It begins the next alternative: the first alternative that doesn't wait is done, and the others leave nothing. A transaction has at
    /// most four. One that is fed can't begin one: then the transaction is refused as [`Refused::BadOps`].
    pub fn or(self) -> Op {
        let mark = match self.mark {
            NEXT | OR => OR,
            _ => NO_MARK,
        };
        Op { mark, ..self }
    }

    /// Its first number, a value or a key, is what that operation of its alternative replied, the alternative's first being 0. Where
    /// that was no number, this one does nothing and replies `Empty`. One that begins an alternative can't be fed, since none stands
    /// before it there, nor can this number of `swap`, `update`, `modify` and `check`: the transaction is refused as [`Refused::BadOps`].
    pub fn fed(self, operation: usize) -> Op {
        Op {
            mark: self.mark_fed(FED_A),
            a: word(operation),
            ..self
        }
    }

    /// The same of its second number: of a key's value, say, or of the number of an `update`.
    pub fn fed_second(self, operation: usize) -> Op {
        Op {
            mark: self.mark_fed(FED_B),
            b: word(operation),
            ..self
        }
    }

    fn mark_fed(&self, by: u32) -> u32 {
        match self.mark {
            NEXT => by,
            mark if mark == by => by,
            FED_A | FED_B | FED_BOTH => FED_BOTH,
            _ => NO_MARK,
        }
    }

    fn feeds_a(&self) -> bool {
        self.mark == FED_A || self.mark == FED_BOTH
    }

    fn feeds_b(&self) -> bool {
        self.mark == FED_B || self.mark == FED_BOTH
    }

    pub(crate) fn begins_an_alternative(&self) -> bool {
        self.mark == OR
    }

    // The same behind so many more operations: it is fed by the same ones, and by none where it was by none.
    pub(crate) fn moved(self, place: usize, by: usize) -> Op {
        let moved = |at: u32| {
            if (at as usize) < place {
                at + by as u32
            } else {
                u32::MAX
            }
        };
        Op {
            a: if self.feeds_a() {
                moved(self.a)
            } else {
                self.a
            },
            b: if self.feeds_b() {
                moved(self.b)
            } else {
                self.b
            },
            ..self
        }
    }

    // Whether it puts nothing, whatever stands there.
    pub(crate) fn only_reads(&self) -> bool {
        matches!(
            self.verb,
            SAY | GET
                | CHECK
                | DIFFERS
                | TOP
                | FRONT
                | FIND
                | MPEEK
                | AWAIT
                | RESOLVED
                | TOTAL
                | LEN
        )
    }
}

// No mark, which the library refuses: that of an operation which begins an alternative and is fed.
const NO_MARK: u32 = u32::MAX;

// What is no place of an operation names none.
fn word(operation: usize) -> u32 {
    u32::try_from(operation).unwrap_or(u32::MAX)
}

/// Replies the number: it tells which alternative ran.
pub fn say(number: u32) -> Op {
    Op::new(Object::default(), SAY, number, 0)
}

/// What a check asks, the location's value standing left.
#[repr(u32)]
#[derive(Clone, Copy, Debug, PartialEq, Eq)]
pub enum Relation {
    Eq = EQ,
    Ne = NE,
    Lt = LT,
    Le = LE,
    Gt = GT,
    Ge = GE,
}

/// What an update makes of a location's value and a number.
#[repr(u32)]
#[derive(Clone, Copy, Debug, PartialEq, Eq)]
pub enum Function {
    /// It wraps.
    Add = FUN_ADD,
    Max = FUN_MAX,
    Min = FUN_MIN,
    And = FUN_AND,
    Or = FUN_OR,
    Xor = FUN_XOR,
}

macro_rules! structure {
    ($(#[$said:meta])* $name:ident { $($(#[$of_op:meta])* $op:ident($($number:ident: $is:ty),*) = $verb:ident($a:expr, $b:expr);)* }) => {
        $(#[$said])*
        #[derive(Clone, Copy, Debug, PartialEq, Eq)]
        pub struct $name(pub(crate) Object);

        #[allow(clippy::should_implement_trait)]
        impl $name {
            $($(#[$of_op])* pub fn $op(self $(, $number: $is)*) -> Op {
                Op::new(self.0, $verb, $a, $b)
            })*

            /// Its first location.
            pub fn base(self) -> u32 {
                self.0.base
            }
        }
    };
}

structure! {
    /// One location, with a number.
    Location {
        /// Replies the value.
        get() = GET(0, 0);
        /// Puts a value: `Unit`.
        set(value: u32) = SET(value, 0);
        /// Puts a value, and replies the one before.
        xchg(value: u32) = XCHG(value, 0);
        /// Each gets the other's value: `Unit`.
        swap(other: Location) = SWAP(other.0.base, 0);
        /// Puts `new` where the value is `old`, and replies whether it was.
        cas(old: u32, new: u32) = CAS(old, new);
        /// Adds, which wraps, and replies the value before.
        add(number: u32) = ADD(number, 0);
        /// Takes away, which wraps, and replies the value before.
        sub(number: u32) = ADD(number.wrapping_neg(), 0);
        /// Adds one: `Unit`.
        incr() = INCR(0, 0);
        /// Takes one away: `Unit`.
        decr() = DECR(0, 0);
        /// Puts what the function makes of the value and the number, and replies the value before.
        update(function: Function, number: u32) = UPDATE(function as u32, number);
        /// The same: `Unit`.
        modify(function: Function, number: u32) = MODIFY(function as u32, number);
        /// Waits unless the relation holds of the value and the number: `Unit`.
        check(relation: Relation, number: u32) = CHECK(relation as u32, number);
        /// Waits while the value is this one: `Unit`.
        differs(value: u32) = DIFFERS(value, 0);
    }
}

structure! {
    /// A stack of up to 4,096 items.
    Stack {
        /// `Unit`, or `Full`.
        push(item: u32) = PUSH(item, 0);
        /// `Unit`; waits where there is no room.
        pushw(item: u32) = PUSHW(item, 0);
        /// Takes the top item, or `Empty`.
        pop() = POP(0, 0);
        /// Takes the top item; waits where there is none.
        popw() = POPW(0, 0);
        /// The top item, which stays, or `Empty`.
        top() = TOP(0, 0);
        /// How many items.
        len() = LEN(0, 0);
    }
}

structure! {
    /// A queue of up to 4,096 items.
    Queue {
        /// `Unit`, or `Full`.
        enq(item: u32) = ENQ(item, 0);
        /// `Unit`; waits where there is no room.
        enqw(item: u32) = ENQW(item, 0);
        /// Takes the front item, or `Empty`.
        deq() = DEQ(0, 0);
        /// Takes the front item; waits where there is none.
        deqw() = DEQW(0, 0);
        /// The front item, which stays, or `Empty`.
        front() = FRONT(0, 0);
        /// How many items.
        len() = LEN(0, 0);
    }
}

impl Queue {
    /// The location of its number of items, for a check of it.
    pub fn length(self) -> Location {
        Location(object(LOC, self.0.base + 1, 0, 0))
    }
}

structure! {
    /// A table of up to 4,096 keys, in 1 to 1,024 buckets, or in as many as come to be where it grows.
    Table {
        /// `Unit`, or `Full` where the key is new and there is no room.
        put(key: u32, value: u32) = PUT(key, value);
        /// `Unit`; waits where the key is new and there is no room.
        putw(key: u32, value: u32) = PUTW(key, value);
        /// The key's value, or `Empty`.
        find(key: u32) = FIND(key, 0);
        /// Takes the key out, and replies its value, or `Empty`.
        del(key: u32) = DEL(key, 0);
        /// How many keys.
        len() = LEN(0, 0);
    }
}

structure! {
    /// A table that drops the key that was used least recently. Each operation on a key but `del` uses it.
    Cache {
        /// `Unit`; where the key is new and there is no room, the key that was used least recently goes.
        put(key: u32, value: u32) = CPUT(key, value);
        /// `Unit`; waits where a key would have to go.
        putw(key: u32, value: u32) = CPUTW(key, value);
        /// The key's value, or `Empty`.
        get(key: u32) = CGET(key, 0);
        /// Takes the key out, and replies its value, or `Empty`.
        del(key: u32) = CDEL(key, 0);
        /// How many keys.
        len() = LEN(0, 0);
    }
}

structure! {
    /// A place for one value.
    Mvar {
        /// `Unit`; waits where there is a value.
        put(value: u32) = MPUT(value, 0);
        /// Takes the value; waits where there is none.
        take() = MTAKE(0, 0);
        /// The value, which stays, or `Empty`.
        peek() = MPEEK(0, 0);
    }
}

structure! {
    /// A value that is set once.
    Promise {
        /// `Unit`, or `Bool(false)` where there is a value, which stays.
        resolve(value: u32) = RESOLVE(value, 0);
        /// The value; waits where there is none.
        wait() = AWAIT(0, 0);
        /// Whether there is a value.
        resolved() = RESOLVED(0, 0);
    }
}

structure! {
    /// A total that is kept in 1 to 32 cells, so that those who add seldom meet.
    Total {
        /// Adds, which wraps, in the cell that `by` picks, as a thread's number does: `Unit`.
        bump(number: u32, by: u32) = BUMP(number, by);
        /// The total, which wraps.
        total() = TOTAL(0, 0);
    }
}

fn object(kind: u32, base: u32, capacity: u32, buckets: u32) -> Object {
    Object {
        kind,
        base,
        capacity,
        buckets,
    }
}

/// Structures that lie one behind another, and the values that their cells open with. A size that there isn't is refused as
/// [`Refused::BadSize`], and so is one for which there is no room below location 65,536.
#[derive(Clone, Debug, Default)]
pub struct Layout {
    values: Vec<u32>,
}

impl Layout {
    pub fn new() -> Layout {
        Layout::default()
    }

    fn add(&mut self, kind: u32, capacity: u32, buckets: u32) -> Result<Object, Refused> {
        let mut end = self.values.len() as u32;
        let mut made = object(kind, end, capacity, buckets);
        let cells = unsafe { kcas_cells(&made) } as usize;
        self.values.resize(self.values.len() + cells, 0);
        match unsafe { kcas_lay(&mut made, self.values.as_mut_ptr(), self.values.len(), &mut end) } {
            DONE => Ok(made),
            answer => Err(Refused::of(answer)),
        }
    }

    pub fn location(&mut self, value: u32) -> Result<Location, Refused> {
        let made = self.add(LOC, 0, 0)?;
        self.values[made.base as usize] = value;
        Ok(Location(made))
    }

    pub fn stack(&mut self, capacity: u32) -> Result<Stack, Refused> {
        self.add(STACK, capacity, 0).map(Stack)
    }

    pub fn queue(&mut self, capacity: u32) -> Result<Queue, Refused> {
        self.add(QUEUE, capacity, 0).map(Queue)
    }

    pub fn table(&mut self, buckets: u32, capacity: u32) -> Result<Table, Refused> {
        self.add(TABLE, capacity, buckets).map(Table)
    }

    /// A table that begins with one bucket, and splits buckets as keys come.
    pub fn grow(&mut self, capacity: u32) -> Result<Table, Refused> {
        self.add(GROW, capacity, 0).map(Table)
    }

    pub fn cache(&mut self, buckets: u32, capacity: u32) -> Result<Cache, Refused> {
        self.add(CACHE, capacity, buckets).map(Cache)
    }

    pub fn mvar(&mut self) -> Result<Mvar, Refused> {
        self.add(MVAR, 0, 0).map(Mvar)
    }

    pub fn promise(&mut self) -> Result<Promise, Refused> {
        self.add(PROMISE, 0, 0).map(Promise)
    }

    pub fn total(&mut self, cells: u32) -> Result<Total, Refused> {
        self.add(ACC, cells, 0).map(Total)
    }

    pub fn values(&self) -> &[u32] {
        &self.values
    }
}

impl Location {
    /// A location by its number, for a store that isn't opened on a layout.
    pub fn at(number: u32) -> Location {
        Location(object(LOC, number, 0, 0))
    }
}
