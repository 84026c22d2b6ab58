//! What can go wrong, and how it is reported: in each case run the given words, and keep nothing.
use scl::Request;

fn ask(title: &str, request: &Request) {
    let answer = match request.ask() {
        Ok(answer) => answer,
        Err(error) => return println!("{title}: {error}"),
    };
    println!("{title}: answered");
    if let (Some(at), Some(reason), Some(sentence)) =
        (answer.at(), answer.reason(), answer.sentence())
    {
        println!(
            "word {at}, {}: {}",
            String::from_utf8_lossy(&reason),
            String::from_utf8_lossy(&sentence)
        );
    }
}

fn main() {
    let plain = Request::new("gcc").words(["-E", "a.c"]).clone();
    ask("rustc", Request::new("rustc").words(["-E", "a.c"]));
    ask("a setting", plain.clone().setting("what-none-knows 1"));
    ask("one word at most", plain.clone().setting("bound 1"));
    ask("a catalogue", plain.clone().catalogue("what is this\n"));
    ask("gcc -E", &plain);
}
