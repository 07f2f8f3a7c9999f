//! What the wrapper adds to the library: refusals by name, deadlines, commits as seen, alternatives.
use std::time::{Duration, Instant};

use kcas::{open, say, Caller, Layout, Location, Op, Refused, Relation, Reply};

fn one_caller(values: &[u32]) -> Caller {
    open(values, 1).expect("there is memory").remove(0)
}

#[test]
fn refusals_say_what() {
    assert_eq!(open(&[0], 0).err(), Some(Refused::BadSize));
    assert_eq!(open(&[0], 65).err(), Some(Refused::BadSize));
    let mut caller = one_caller(&[5, 6]);
    let get = Location::at(0).get();
    let refused = caller.commit(&[get, Location::at(2).get()]);
    assert_eq!(refused, Err(Refused::BadOps(Some(1))));
    assert_eq!(
        refused.unwrap_err().to_string(),
        "kcas: KCAS_BAD_OPS, operation 1"
    );
    assert_eq!(caller.commit(&[]), Err(Refused::BadOps(None)));
    assert_eq!(caller.commit(&[get; 17]), Err(Refused::BadOps(None)));
    assert_eq!(caller.commit(&[get.or()]), Err(Refused::BadOps(Some(0))));
    assert_eq!(caller.add(Location::at(2), 1), Err(Refused::BadOps(None)));
    assert_eq!(caller.read(Location::at(1)), Ok(6));
    assert_eq!(Refused::Worn.to_string(), "kcas: KCAS_WORN");
    assert_eq!(kcas::version(), env!("CARGO_PKG_VERSION"));
}

#[test]
fn sizes_are_tested() {
    let mut layout = Layout::new();
    assert_eq!(layout.queue(0), Err(Refused::BadSize));
    assert_eq!(layout.queue(4097), Err(Refused::BadSize));
    assert_eq!(layout.table(0, 4), Err(Refused::BadSize));
    for _ in 0..65536 {
        layout.location(1).expect("there is room");
    }
    assert_eq!(layout.location(1), Err(Refused::BadSize));
    assert_eq!(layout.values().len(), 65536);
}

#[test]
fn each_structure_replies() {
    let mut layout = Layout::new();
    let (stack, queue, table, grow) = (
        layout.stack(1).unwrap(),
        layout.queue(1).unwrap(),
        layout.table(2, 2).unwrap(),
        layout.grow(4).unwrap(),
    );
    let (cache, mvar, promise, total) = (
        layout.cache(2, 2).unwrap(),
        layout.mvar().unwrap(),
        layout.promise().unwrap(),
        layout.total(4).unwrap(),
    );
    let (a, b) = (layout.location(5).unwrap(), layout.location(6).unwrap());
    let mut caller = one_caller(layout.values());
    let rows: &[(Op, Option<Reply>)] = &[
        (stack.push(7), Some(Reply::Unit)),
        (stack.push(8), Some(Reply::Full)),
        (stack.top(), Some(Reply::Value(7))),
        (stack.popw(), Some(Reply::Value(7))),
        (stack.popw(), None),
        (queue.enq(3), Some(Reply::Unit)),
        (queue.length().get(), Some(Reply::Value(1))),
        (queue.front(), Some(Reply::Value(3))),
        (queue.deq(), Some(Reply::Value(3))),
        (queue.deq(), Some(Reply::Empty)),
        (table.put(1, 10), Some(Reply::Unit)),
        (table.find(1), Some(Reply::Value(10))),
        (grow.put(1, 11), Some(Reply::Unit)),
        (grow.del(1), Some(Reply::Value(11))),
        (cache.put(1, 12), Some(Reply::Unit)),
        (cache.get(1), Some(Reply::Value(12))),
        (cache.len(), Some(Reply::Value(1))),
        (mvar.take(), None),
        (mvar.put(4), Some(Reply::Unit)),
        (mvar.take(), Some(Reply::Value(4))),
        (promise.resolved(), Some(Reply::Bool(false))),
        (promise.resolve(9), Some(Reply::Unit)),
        (promise.wait(), Some(Reply::Value(9))),
        (total.bump(5, 1), Some(Reply::Unit)),
        (total.total(), Some(Reply::Value(5))),
        (a.swap(b), Some(Reply::Unit)),
        (a.cas(6, 8), Some(Reply::Bool(true))),
        (a.sub(3), Some(Reply::Value(8))),
        (a.update(kcas::Function::Max, 9), Some(Reply::Value(5))),
        (a.check(Relation::Lt, 9), None),
    ];
    for (op, reply) in rows {
        assert_eq!(caller.one(*op), Ok(*reply), "{op:?}");
    }
    let replies = caller
        .commit(&[say(1), a.differs(9), say(2).or(), a.get()])
        .unwrap()
        .expect("the second runs");
    assert_eq!(
        replies[..3],
        [Reply::Value(2), Reply::Value(9), Reply::Nothing]
    );
}

#[test]
fn waits_end_at_their_deadline() {
    let mut callers = open(&[0], 2).unwrap();
    let (mut putter, mut waiter) = (callers.remove(0), callers.remove(0));
    let positive = Location::at(0).check(Relation::Gt, 0);
    let start = Instant::now();
    assert_eq!(
        waiter.commit_timeout(&[positive], Duration::from_millis(30)),
        Ok(None)
    );
    assert!(start.elapsed() >= Duration::from_millis(30));
    let waiting = std::thread::spawn(move || {
        waiter
            .commit_timeout(&[positive], Duration::MAX)
            .map(|replies| replies.is_some())
    });
    std::thread::sleep(Duration::from_millis(20));
    putter.add(Location::at(0), 1).unwrap();
    assert_eq!(waiting.join().unwrap(), Ok(true));
}

#[test]
fn acts_only_on_what_was_seen() {
    let mut callers = open(&[7, 0], 2).unwrap();
    let (mut one, mut other) = (callers.remove(0), callers.remove(0));
    let (x, y) = (Location::at(0), Location::at(1));
    let seen = one.one(x.get()).unwrap().unwrap().value().unwrap();
    other.add(x, 1).unwrap();
    assert_eq!(one.commit_as_seen(&[y.set(seen)]), Ok(None));
    let seen = one.one(x.get()).unwrap().unwrap().value().unwrap();
    let told = one
        .commit_as_seen(&[y.xchg(seen), y.get()])
        .unwrap()
        .expect("nothing has changed");
    assert_eq!(
        told[..3],
        [Reply::Value(0), Reply::Value(8), Reply::Nothing]
    );
    assert_eq!(
        one.commit_as_seen(&[x.get().or()]),
        Err(Refused::BadOps(None))
    );
    assert_eq!(
        one.commit_as_seen(&[x.get(); 16]),
        Err(Refused::BadOps(None))
    );
}

#[test]
fn no_wake_is_lost() {
    const EACH: u32 = 5000;
    let mut layout = Layout::new();
    let (queue, sum) = (layout.queue(2).unwrap(), layout.location(0).unwrap());
    let mut callers = open(layout.values(), 5).unwrap();
    let mut looker = callers.pop().unwrap();
    let room = queue.length().check(Relation::Lt, 2);
    std::thread::scope(|scope| {
        for (me, mut caller) in callers.into_iter().enumerate() {
            scope.spawn(move || {
                for i in 0..EACH {
                    if me % 2 == 0 {
                        caller.commit_waiting(&[room, queue.enq(i)]).unwrap();
                    } else {
                        // Some deadlines come before an item does.
                        let limit = Duration::from_micros(u64::from(i) % 50);
                        let taken = caller.commit_timeout(&[queue.deqw()], limit).unwrap();
                        let taken = taken
                            .unwrap_or_else(|| caller.commit_waiting(&[queue.deqw()]).unwrap());
                        caller.add(sum, taken[0].value().unwrap()).unwrap();
                    }
                }
            });
        }
    });
    assert_eq!(looker.read(sum), Ok(EACH * (EACH - 1)));
    assert_eq!(looker.one(queue.deq()), Ok(Some(Reply::Empty)));
}

#[test]
fn replies_feed_what_comes_behind() {
    let mut layout = Layout::new();
    let queue = layout.queue(2).unwrap();
    let (table, sum) = (layout.table(4, 8).unwrap(), layout.location(0).unwrap());
    let mut one = open(layout.values(), 1).unwrap().pop().unwrap();
    let take = [
        queue.deq(),
        table.put(0, 0).fed(0).fed_second(0),
        sum.add(0).fed(0),
    ];
    let nothing = one.commit(&take).unwrap().unwrap();
    assert_eq!(nothing[..3], [Reply::Empty; 3]);
    one.commit(&[queue.enqw(7), queue.enqw(8)]).unwrap();
    assert_eq!(one.commit(&[queue.enqw(9)]), Ok(None));
    let taken = one.commit(&take).unwrap().unwrap();
    assert_eq!(taken[..3], [Reply::Value(7), Reply::Unit, Reply::Value(0)]);
    assert_eq!(one.one(table.find(7)), Ok(Some(Reply::Value(7))));
    assert_eq!(one.read(sum), Ok(7));
    one.one(sum.get()).unwrap();
    let moved = one.commit_as_seen(&[say(3), sum.set(0).fed(0)]).unwrap();
    assert_eq!(moved.unwrap()[1], Reply::Unit);
    assert_eq!(one.read(sum), Ok(3));
    let later = [sum.get(), sum.set(0).fed(1)];
    assert_eq!(one.commit(&later), Err(Refused::BadOps(Some(1))));
    // One that begins an alternative isn't fed.
    let add = sum.add(0);
    for neither in [
        add.fed(0).or(),
        add.or().fed(0),
        add.fed_second(0).or(),
        add.or().fed_second(0),
        add.fed(0).fed_second(0).or(),
        add.fed(0).or().fed_second(0),
    ] {
        let ops = [say(1), sum.get(), neither];
        assert_eq!(one.commit(&ops), Err(Refused::BadOps(Some(2))));
        assert_eq!(one.look(&ops), Err(Refused::BadOps(Some(2))));
    }
    assert_eq!(add.or().or(), add.or());
    assert_eq!(add.fed(0).fed(0), add.fed(0));
    assert_eq!(add.fed(0).fed_second(0), add.fed_second(0).fed(0));
}

#[test]
fn a_look_puts_nothing() {
    let mut layout = Layout::new();
    let (x, queue) = (layout.location(5).unwrap(), layout.queue(2).unwrap());
    let mut one = open(layout.values(), 1).unwrap().pop().unwrap();
    let seen = one.look(&[x.get(), queue.len()]).unwrap().unwrap();
    assert_eq!(seen[..2], [Reply::Value(5), Reply::Value(0)]);
    assert_eq!(one.look(&[queue.deqw()]), Ok(None));
    assert_eq!(one.look(&[x.incr()]), Err(Refused::Puts));
    assert_eq!(one.life(x), Ok(0));
    one.add(x, 1).unwrap();
    assert_eq!(one.life(x), Ok(1));
    assert_eq!(one.life(Location::at(60000)), Err(Refused::BadOps(None)));
}

#[test]
fn who_waits_is_told_of_the_end() {
    let mut layout = Layout::new();
    let queue = layout.queue(2).unwrap();
    let mut callers = open(layout.values(), 2).unwrap();
    let mut waiter = callers.pop().unwrap();
    let waiting = std::thread::spawn(move || waiter.commit_waiting(&[queue.deqw()]));
    std::thread::sleep(Duration::from_millis(20));
    callers[0].end();
    assert_eq!(waiting.join().unwrap(), Err(Refused::Closed));
    assert_eq!(
        callers[0].commit_waiting(&[queue.deqw()]),
        Err(Refused::Closed)
    );
}
