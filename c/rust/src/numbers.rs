//! The numbers of `kcas.h`, without its prefix.

// Kinds of structures.
pub const LOC: u32 = 1;
pub const STACK: u32 = 2;
pub const QUEUE: u32 = 3;
pub const TABLE: u32 = 4;
pub const GROW: u32 = 5;
pub const CACHE: u32 = 6;
pub const MVAR: u32 = 7;
pub const PROMISE: u32 = 8;
pub const ACC: u32 = 9;

// What is done.
pub const SAY: u32 = 1;
pub const GET: u32 = 2;
pub const SET: u32 = 3;
pub const XCHG: u32 = 4;
pub const SWAP: u32 = 5;
pub const CAS: u32 = 6;
pub const ADD: u32 = 7;
pub const INCR: u32 = 8;
pub const DECR: u32 = 9;
pub const UPDATE: u32 = 10;
pub const MODIFY: u32 = 11;
pub const CHECK: u32 = 12;
pub const DIFFERS: u32 = 13;
pub const PUSH: u32 = 14;
pub const POP: u32 = 15;
pub const POPW: u32 = 16;
pub const TOP: u32 = 17;
pub const ENQ: u32 = 18;
pub const DEQ: u32 = 19;
pub const DEQW: u32 = 20;
pub const FRONT: u32 = 21;
pub const PUT: u32 = 22;
pub const FIND: u32 = 23;
pub const DEL: u32 = 24;
pub const CPUT: u32 = 25;
pub const CPUTW: u32 = 26;
pub const CGET: u32 = 27;
pub const CDEL: u32 = 28;
pub const MPUT: u32 = 29;
pub const MTAKE: u32 = 30;
pub const MPEEK: u32 = 31;
pub const RESOLVE: u32 = 32;
pub const AWAIT: u32 = 33;
pub const RESOLVED: u32 = 34;
pub const BUMP: u32 = 35;
pub const TOTAL: u32 = 36;
pub const LEN: u32 = 37;
pub const PUSHW: u32 = 38;
pub const ENQW: u32 = 39;
pub const PUTW: u32 = 40;

// Functions of UPDATE and MODIFY.
pub const FUN_ADD: u32 = 1;
pub const FUN_MAX: u32 = 2;
pub const FUN_MIN: u32 = 3;
pub const FUN_AND: u32 = 4;
pub const FUN_OR: u32 = 5;
pub const FUN_XOR: u32 = 6;

// Relations of CHECK.
pub const EQ: u32 = 1;
pub const NE: u32 = 2;
pub const LT: u32 = 3;
pub const LE: u32 = 4;
pub const GT: u32 = 5;
pub const GE: u32 = 6;

// Marks.
pub const NEXT: u32 = 0;
pub const OR: u32 = 1;
pub const FED_A: u32 = 2;
pub const FED_B: u32 = 3;
pub const FED_BOTH: u32 = 4;

// Answers.
pub const DONE: u32 = 0;
pub const LATER: u32 = 1;
pub const TOO_LARGE: u32 = 2;
pub const WORN: u32 = 3;
pub const POOL_WORN: u32 = 4;
pub const LOST: u32 = 5;
pub const BUSY: u32 = 6;
pub const PUTS: u32 = 7;
pub const CHANGED: u32 = 8;
pub const CLOSED: u32 = 16;
pub const BAD_OPS: u32 = 18;
pub const NO_MEMORY: u32 = 19;
pub const BAD_SIZE: u32 = 20;

// Answers of a hang.
pub const GOING: u32 = 32;
pub const HUNG: u32 = 33;
pub const LEAVING: u32 = 34;
pub const QUIET: u32 = 36;

// Kinds of replies; what isn't one of these is none.
pub const UNIT: u32 = 1;
pub const VALUE: u32 = 2;
pub const BOOL: u32 = 3;
pub const EMPTY: u32 = 4;
pub const FULL: u32 = 5;

/// How many operations a transaction may have.
pub const MOST_OPS: usize = 16;
