//! Two workers take jobs from two queues, the urgent one first. Each takes a job, keeps its result in a cache and counts it, in one
//! commit, and an auditor sees at every hundred that no job is lost on the way.
use kcas::{say, Cache, Caller, Layout, Location, Queue, Refused, Relation, Reply};

const JOBS: u32 = 5000;
const STOP: u32 = 2;

#[derive(Clone, Copy)]
struct Desk {
    queues: [Queue; 2],
    results: Cache,
    entered: Location,
    done: Location,
}

fn work(caller: &mut Caller, on: Desk) -> Result<(), Refused> {
    let [urgent, plain] = on.queues;
    loop {
        let seen = caller.commit_waiting(&[
            say(0),
            urgent.length().check(Relation::Gt, 0),
            urgent.front(),
            say(1).or(),
            plain.length().check(Relation::Gt, 0),
            plain.front(),
            say(STOP).or(),
            on.done.check(Relation::Eq, JOBS),
        ])?;
        let (Reply::Value(which), Reply::Value(job)) = (seen[0], seen[2]) else {
            return Ok(());
        };
        // Where the other worker was faster, this does nothing, and the loop looks again.
        caller.commit_as_seen(&[
            on.queues[which as usize].deq(),
            on.results.put(job, job * job),
            on.done.incr(),
        ])?;
    }
}

fn audit(caller: &mut Caller, on: Desk) -> Result<(), Refused> {
    let [urgent, plain] = on.queues;
    for next in (100..=JOBS).step_by(100) {
        let now = caller.commit_waiting(&[
            on.done.check(Relation::Ge, next),
            on.entered.get(),
            on.done.get(),
            urgent.len(),
            plain.len(),
        ])?;
        let [entered, done, urgent, plain] = [1, 2, 3, 4].map(|i| now[i].value());
        assert_eq!(
            entered,
            done.zip(urgent)
                .zip(plain)
                .map(|((done, urgent), plain)| done + urgent + plain)
        );
    }
    Ok(())
}

fn main() -> Result<(), Refused> {
    let mut layout = Layout::new();
    let queues = [layout.queue(8)?, layout.queue(32)?];
    let on = Desk {
        queues,
        results: layout.cache(8, 16)?,
        entered: layout.location(0)?,
        done: layout.location(0)?,
    };
    let callers: [Caller; 4] = kcas::open(layout.values(), 4)?
        .try_into()
        .ok()
        .expect("there are four");
    let [mut foreman, mut first, mut second, mut auditor] = callers;
    std::thread::scope(|scope| {
        let others = [
            scope.spawn(move || work(&mut first, on)),
            scope.spawn(move || work(&mut second, on)),
            scope.spawn(move || audit(&mut auditor, on)),
        ];
        for job in 0..JOBS {
            let (queue, room) = if job % 10 == 0 {
                (on.queues[0], 8)
            } else {
                (on.queues[1], 32)
            };
            foreman.commit_waiting(&[
                queue.length().check(Relation::Lt, room),
                queue.enq(job),
                on.entered.incr(),
            ])?;
        }
        others
            .into_iter()
            .try_for_each(|other| other.join().expect("nobody panics"))
    })?;
    let last = foreman
        .commit(&[on.done.get(), on.results.len()])?
        .expect("a look doesn't wait");
    println!(
        "{} jobs done, the last {} results are kept",
        last[0].value().unwrap_or(0),
        last[1].value().unwrap_or(0)
    );
    Ok(())
}
