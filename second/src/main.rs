//! The second program: scrambling bit by bit (clause 7.2.4), fill bits by Table 38 (clause 7.2.5), sync words by the lists
//! of Tables 41, 43, 45 and 47 (clause 7.3), parity by long division of polynomials (clauses 7.4.2, 7.4.3 and 7.5.2), and
//! messages by Tables 49, 50 and 51 (clause 7.3.7).
//! `second tables` prints Tables 37, 52, 53, 54 and 55, a spread of sync words, and what headers read as; `second misprint`,
//! `second bursts` and `second fill` print what can be found by trying every case, and `second locking` how soon lanes of FEC
//! are locked by the table of document 01 and by that of request 4. `second bulk FIRST LAST` prints a line for the seeded case
//! of each seed from FIRST to LAST. `second captures` prints named captures one after another, `second capture NAME` one of
//! them, `second listings` the listings of those on standard input, and `second messages` the messages of a capture there.

mod bits;
mod bulk;
mod bursts;
mod calls;
mod captures;
mod cases;
mod code;
mod command;
mod damaged;
mod digest;
mod event;
mod fill;
mod frame;
mod generator;
mod header;
mod lanes;
mod later;
mod listed;
mod listing;
mod lock;
mod locking;
mod locks;
mod longest;
mod message;
mod messaged;
mod messages;
mod misprint;
mod mode;
mod pilot;
mod polynomial;
mod receiver;
mod register;
mod repeating;
mod scrambler;
mod sender;
mod sync;
mod tables;
mod words;

use std::io::{stdin, stdout, Read, Write};
use std::process::ExitCode;

const USAGE: &str =
    "usage: second tables | misprint | bursts | fill | locking | bulk FIRST LAST | captures | capture NAME | \
    listings <CAPTURES | messages <CAPTURE";

fn text(lines: &[String]) -> Vec<u8> {
    lines.iter().flat_map(|line| format!("{line}\n").into_bytes()).collect()
}

fn standard_input() -> Option<Vec<u8>> {
    let mut octets = vec![];
    stdin().read_to_end(&mut octets).ok().map(|_| octets)
}

/// What the arguments ask for, or nothing if they ask for nothing known.
fn answer(arguments: &[String]) -> Option<Vec<u8>> {
    let words: Vec<&str> = arguments.iter().map(String::as_str).collect();
    match words[..] {
        ["tables"] => Some(text(&[tables::lines(), words::lines()].concat())),
        ["misprint"] => Some(text(&misprint::lines())),
        ["bursts"] => Some(text(&bursts::lines())),
        ["fill"] => Some(text(&register::lines())),
        ["locking"] => Some(text(&locking::lines())),
        ["bulk", first, last] => Some(text(&bulk::lines(first.parse().ok()?, last.parse().ok()?))),
        ["captures"] => Some(captures::packed(&captures::cases())),
        ["capture", name] => captures::named(name),
        ["listings"] => listing::listings(&standard_input()?).map(String::into_bytes),
        ["messages"] => Some(messages::text(&standard_input()?).into_bytes()),
        _ => None,
    }
}

fn main() -> ExitCode {
    let arguments: Vec<String> = std::env::args().skip(1).collect();
    match answer(&arguments) {
        Some(octets) if stdout().write_all(&octets).is_ok() => ExitCode::SUCCESS,
        Some(_) => ExitCode::FAILURE,
        None => {
            eprintln!("{USAGE}");
            ExitCode::from(2)
        }
    }
}
