//! rustc hello.rs -L DIRECTORY_OF_LIBSCL -l static=scl: the command of a line and its hazards, by the rows of a description
//! (docs/PROTOCOL.md), and the answer to a request's text.
type Call = unsafe extern "C" fn(request: *const u8, len: usize, room: *mut u8, room_len: usize, wanted: *mut usize) -> i32;

extern "C" {
    fn scl_run(request: *const u8, len: usize, room: *mut u8, room_len: usize, wanted: *mut usize) -> i32;
    fn scl_describe(request: *const u8, len: usize, room: *mut u8, room_len: usize, wanted: *mut usize) -> i32;
}

/// The answer to a request's text; else the status, and the number of a bad line.
fn respond(call: Call, request: &str) -> Result<String, (i32, usize)> {
    let mut room = vec![0; 4096];
    loop {
        let mut wanted = 0;
        match unsafe { call(request.as_ptr(), request.len(), room.as_mut_ptr(), room.len(), &mut wanted) } {
            0 => {
                room.truncate(wanted);
                return Ok(String::from_utf8(room).expect("an answer is UTF-8"));
            }
            1 => room.resize(wanted, 0),
            status => return Err((status, wanted)),
        }
    }
}

/// Bytes as they stand in a request.
fn field(bytes: &[u8]) -> String {
    let one = |&byte: &u8| match byte {
        0x21..=0x5b | 0x5d..=0x7e => char::from(byte).to_string(),
        _ => format!("\\x{byte:02x}"),
    };
    bytes.iter().map(one).collect()
}

/// The bytes that a field of an answer stands for.
fn bytes(field: &str) -> Vec<u8> {
    let mut parts = field.split("\\x");
    let mut bytes = parts.next().unwrap_or_default().as_bytes().to_vec();
    for part in parts {
        bytes.push(u8::from_str_radix(&part[..2], 16).expect("two digits"));
        bytes.extend(part[2..].as_bytes());
    }
    bytes
}

/// The rows of the description of a command line: a name, and the fields after it.
fn describe(compiler: &str, words: &[&[u8]]) -> Result<Vec<(String, Vec<Vec<u8>>)>, (i32, usize)> {
    let words: String = words.iter().map(|word| format!("word {}\n", field(word))).collect();
    let text = respond(scl_describe, &format!("compiler {compiler}\n{words}"))?;
    let row = |line: &str| {
        let mut fields = line.split(' ');
        let name = fields.next().unwrap_or_default().to_string();
        (name, fields.map(bytes).collect())
    };
    Ok(text.lines().map(row).collect())
}

fn main() {
    for (name, fields) in describe("gcc", &[b"-c", b"a.c", b"-O2", b"-MD", b"-MT", b"x", b"-MT", b"y"]).unwrap() {
        if name == "arg" || name == "hazard" {
            println!("{name} {}", String::from_utf8_lossy(&fields[0]));
        }
    }
    print!("{}", respond(scl_run, "compiler gcc\nword -E\nword a.c\n").unwrap());
}
