//! Two threads move money between four accounts and count their tries, and a third waits until one account has enough.
use kcas::{Layout, Location, Op, Refused, Relation};

fn moved(from: Location, to: Location, amount: u32) -> [Op; 3] {
    [
        from.check(Relation::Ge, amount),
        from.sub(amount),
        to.add(amount),
    ]
}

fn main() -> Result<(), Refused> {
    let mut layout = Layout::new();
    let accounts = [
        layout.location(1000)?,
        layout.location(1000)?,
        layout.location(1000)?,
        layout.location(0)?,
    ];
    let tries = layout.location(0)?;
    let mut callers = kcas::open(layout.values(), 3)?;
    let mut last = callers.pop().expect("there are three");
    let clerk = |(mut caller, me): (kcas::Caller, usize)| {
        std::thread::spawn(move || {
            for i in 0..10_000 {
                let (from, to) = (accounts[(i + me) % 3], accounts[(i * 7 + me) % 3]);
                caller.commit(&moved(from, to, i as u32 % 50))?;
                caller.add(tries, 1)?;
            }
            caller.commit_waiting(&moved(accounts[me], accounts[3], 1))
        })
    };
    let clerks: Vec<_> = callers.into_iter().zip(0..).map(clerk).collect();
    last.commit_waiting(&moved(accounts[3], accounts[0], 2))?;
    for clerk in clerks {
        clerk.join().expect("no clerk panics")?;
    }
    let now = last
        .commit(&accounts.map(Location::get))?
        .expect("a look doesn't wait");
    let total: u32 = now.iter().filter_map(|reply| reply.value()).sum();
    println!(
        "the accounts have {total} after {} tries",
        last.read(tries)?
    );
    Ok(())
}
