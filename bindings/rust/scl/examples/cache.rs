//! The loop of a cache over three command lines: it asks until no file is wanted that is there, and decides. The files of this
//! example are in memory. The look-ups are left out, and so are hits: docs/CACHE.md goes through a whole cache.
use scl::{Answer, Error, Request};
use std::borrow::Cow;
use std::collections::HashMap;

/// The answer when every file that is wanted and there was given.
fn answered(words: &[&str], disk: &HashMap<&[u8], &[u8]>) -> Result<Answer, Error> {
    let mut request = Request::new("gcc");
    request.words(words).directory("/w");
    loop {
        let answer = request.ask()?;
        let found: Vec<_> = answer
            .wanted("file")
            .filter_map(|path| Some((disk.get(&*path)?, path)))
            .collect();
        if found.is_empty() {
            return Ok(answer);
        }
        for (text, path) in found {
            println!("  reads {}", String::from_utf8_lossy(&path));
            request.file(path, text);
        }
    }
}

fn decision(answer: &Answer) -> String {
    let text = |it: Cow<'_, [u8]>| String::from_utf8_lossy(&it).into_owned();
    if let Some(reason) = answer.reason() {
        return format!("run it as given: {}", text(reason));
    }
    if let Some((reason, word)) = answer.keep_no().next() {
        return format!("run it as given: {} {}", text(reason), text(word));
    }
    let rows: Vec<_> = answer.key().collect();
    if !answer.is_cacheable() || rows.is_empty() {
        return "run it as given".into();
    }
    let asked = rows.iter().filter(|row| row.is_asked()).count();
    let macros = rows.iter().filter(|row| row.may_be_left_out()).count();
    let hashed = rows.len() - asked - macros;
    format!("hash {hashed} rows, look up {asked}, hash {macros} if it counts")
}

fn main() -> Result<(), Error> {
    let disk = HashMap::from([(&b"/w/flags"[..], &b"-O2 -DX=1"[..])]);
    for line in ["gcc -c a.c @flags", "gcc -E a.c", "gcc -c a.c -o -"] {
        println!("{line}");
        let words: Vec<&str> = line.split(' ').skip(1).collect();
        println!("  {}", decision(&answered(&words, &disk)?));
    }
    Ok(())
}
