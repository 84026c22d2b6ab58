//! A compile database: how many entries a cache gains, and why the rest is lost. The entries stand here as a reader of JSON gives
//! them; `scl database` reads compile_commands.json itself.
use scl::{Outcome, Request};

const ENTRIES: [&[&str]; 3] = [
    &["gcc", "-c", "a.c"],
    &["gcc", "-E", "c.c"],
    &["gcc", "-c", "d.c", "-MD", "-MT", "one", "-MT", "two"],
];

fn main() -> Result<(), scl::Error> {
    let (mut cached, mut with_hazard) = (0, 0);
    for (number, entry) in (1..).zip(ENTRIES) {
        let answer = Request::new(entry[0])
            .words(&entry[1..])
            .directory("/w")
            .ask()?;
        cached += usize::from(answer.outcome() == Outcome::Compiled);
        with_hazard += usize::from(answer.hazards().next().is_some());
        if let Some(reason) = answer.reason() {
            println!(
                "entry {number} cannot be cached: {}",
                String::from_utf8_lossy(&reason)
            );
        }
        for hazard in answer.hazards() {
            println!(
                "entry {number} has a hazard: {}",
                String::from_utf8_lossy(&hazard)
            );
        }
    }
    println!(
        "{} entries, {cached} can be cached, {with_hazard} with a hazard",
        ENTRIES.len()
    );
    Ok(())
}
