//! The key of `gcc -c a.c -O2 -DX=1`: which rows a cache hashes as they are, which it looks up and hashes with their answer, and
//! which it hashes only if the macro counts (docs/CACHE.md). Of a row `by name` the fields say where to look, and only the name is hashed.
use scl::Request;

fn main() -> Result<(), scl::Error> {
    let answer = Request::new("gcc")
        .words(["-c", "a.c", "-O2", "-DX=1"])
        .ask()?;
    if !answer.is_cacheable() || answer.key().next().is_none() {
        println!("keep nothing");
        return Ok(());
    }
    for row in answer.key() {
        let name = String::from_utf8_lossy(&row.name);
        if row.is_asked() {
            println!(
                "look up {name}{}",
                if row.is_named() { ", by name" } else { "" }
            );
        } else {
            let fields: Vec<_> = row
                .fields
                .iter()
                .map(|field| String::from_utf8_lossy(field))
                .collect();
            let what = if row.may_be_left_out() {
                "hash if it counts"
            } else {
                "hash"
            };
            println!(
                "{}",
                [what, &name]
                    .into_iter()
                    .chain(fields.iter().map(|it| &**it))
                    .collect::<Vec<_>>()
                    .join(" ")
            );
        }
    }
    Ok(())
}
