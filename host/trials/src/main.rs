//! `trials`: the exported library, held against the second implementation and tried where it could go wrong.

mod both;
mod damage;
mod differ;
mod laws;
mod library;
mod limits;
mod messages;
mod open;

use std::process::ExitCode;

const USAGE: &str = "\
trials differ [DATAGRAMS [SEED]]   random days through the exported calls and through the second
                                   implementation, every answer and byte compared; as many
                                   datagrams as said (default 100,000), valid and damaged
trials limits                      every exported call with lengths 0, 1, at and past each limit
trials damage                      the bytes of saved connections damaged one at a time
trials messages                    the calls for short messages at their limits, and on the bytes
                                   of a saved gatherer damaged one at a time
trials laws [ROUNDS [SEED]]        the laws of the test bench over random traffic: joined
                                   stretches and swapped arrivals, as many rounds as said
                                   (default 2,000)
trials both [LINKS [SEED]]         both proved ends on bad links: what each hands out, held to what
                                   the other sent and what arrived in time (default 1,000)
";

fn main() -> ExitCode {
    let arguments: Vec<String> = std::env::args().skip(1).collect();
    let words: Vec<&str> = arguments.iter().map(String::as_str).collect();
    let tried = match words[..] {
        ["differ"] => differ::run(100_000, 1),
        ["differ", count] => match count.parse() {
            Ok(count) => differ::run(count, 1),
            Err(_) => return usage(),
        },
        ["differ", count, seed] => match (count.parse(), seed.parse()) {
            (Ok(count), Ok(seed)) => differ::run(count, seed),
            _ => return usage(),
        },
        ["limits"] => limits::run(),
        ["damage"] => damage::run(),
        ["messages"] => messages::run(),
        ["laws"] => laws::run(2_000, 1),
        ["laws", count] => match count.parse() {
            Ok(count) => laws::run(count, 1),
            Err(_) => return usage(),
        },
        ["laws", count, seed] => match (count.parse(), seed.parse()) {
            (Ok(count), Ok(seed)) => laws::run(count, seed),
            _ => return usage(),
        },
        ["both"] => both::run(1_000, 1),
        ["both", count] => match count.parse() {
            Ok(count) => both::run(count, 1),
            Err(_) => return usage(),
        },
        ["both", count, seed] => match (count.parse(), seed.parse()) {
            (Ok(count), Ok(seed)) => both::run(count, seed),
            _ => return usage(),
        },
        _ => return usage(),
    };
    match tried {
        Ok(report) => {
            println!("{report}");
            ExitCode::SUCCESS
        }
        Err(difference) => {
            println!("{difference}");
            ExitCode::FAILURE
        }
    }
}

fn usage() -> ExitCode {
    eprint!("{USAGE}");
    ExitCode::from(2)
}
