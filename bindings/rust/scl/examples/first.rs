//! A first question: which command may run in the place of `gcc -c a.c -O2`, and what it reads and makes.
use scl::{Outcome, Request};

fn main() -> Result<(), scl::Error> {
    let answer = Request::new("gcc").words(["-c", "a.c", "-O2"]).ask()?;
    if answer.outcome() != Outcome::Compiled || answer.hazards().next().is_some() {
        println!("run the given words");
        return Ok(());
    }
    let words: Vec<String> = answer
        .command()
        .map(|word| String::from_utf8_lossy(&word).into_owned())
        .collect();
    println!("run: gcc {}", words.join(" "));
    println!(
        "reads: {}",
        String::from_utf8_lossy(&answer.input().unwrap_or_default())
    );
    for output in answer.outputs() {
        println!("makes: {}", String::from_utf8_lossy(&output.path));
    }
    println!(
        "may be kept: {}",
        if answer.is_cacheable() { "yes" } else { "no" }
    );
    Ok(())
}
