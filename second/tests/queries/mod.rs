//! Queries, which are the VERIFY commands without data, read off the bytes of their lines.

use second::hex;

/// How a query is answered: code open; closed with 3, 2 and 1 tries left; blocked.
pub const STATES: [&str; 5] = ["R9000", "R63C3", "R63C2", "R63C1", "R6983"];

/// As "PIN1 with Le: R63C3"; None for a line that is no query.
pub fn query(line: &[u8], answer: &str) -> Option<String> {
    let command = hex::decode(line.strip_prefix(b"C")?)?;
    match command[..] {
        [0x00, 0x20, 0x00, code @ 0..=2] => Some(named(code, "without Le", answer)),
        [0x00, 0x20, 0x00, code @ 0..=2, _] => Some(named(code, "with Le", answer)),
        _ => None,
    }
}

/// Each code, without Le and with it, with each of the answers.
pub fn queries_of_each_code(answers: &[&str]) -> Vec<String> {
    let mut queries = Vec::new();
    for answer in answers {
        for code in 0..3 {
            queries.push(named(code, "without Le", answer));
            queries.push(named(code, "with Le", answer));
        }
    }
    queries
}

fn named(code: u8, form: &str, answer: &str) -> String {
    let code = ["PUK", "PIN1", "PIN2"][code as usize];
    format!("{code} {form}: {answer}")
}
