//! `unitsim`: see `unitsim --help`.

mod day;
mod link;
mod messages;
mod options;
mod shore;

use day::Day;
use options::{Options, HELP};
use peer::hex;
use std::process::ExitCode;

fn main() -> ExitCode {
    let options = match options::read(std::env::args().skip(1)) {
        Ok(Some(options)) => options,
        Ok(None) => {
            print!("{HELP}");
            return ExitCode::SUCCESS;
        }
        Err(what) => {
            eprintln!("unitsim: {what} (unitsim --help tells the words)");
            return ExitCode::from(2);
        }
    };
    match run(&options) {
        Ok(()) => ExitCode::SUCCESS,
        Err(what) => {
            eprintln!("unitsim: {}: {what}", options.ship);
            ExitCode::FAILURE
        }
    }
}

fn run(options: &Options) -> Result<(), String> {
    let mut day = Day::new(options)?;
    day.run()?;
    if let Some(path) = &options.expected {
        let lines: String = day.gateway.handed_out.iter().map(expected_line).collect();
        std::fs::write(path, lines).map_err(|error| format!("{}: {error}", path.display()))?;
    }
    let (did, tally) = (&day.out.did, &day.gateway.tally);
    let forwarded = match did.forwarded {
        0 => String::new(),
        some => format!(", forwarded {some}"),
    };
    let reboots = match day.reboots {
        0 => String::new(),
        some => format!(", reboots {some}"),
    };
    println!(
        "{}: {} reports sent; the link lost {}, repeated {}, delayed {}, reordered {}, damaged {}{forwarded}{reboots}",
        options.ship, day.sent, did.lost, did.repeated, did.delayed, did.reordered, did.damaged
    );
    println!("{}: said again {} hellos and flights", options.ship, day.said_again);
    println!(
        "{}: to be handed out {}, forged {}, too old {}, repeated {}",
        options.ship, tally.handed_out, tally.forged, tally.too_old, tally.repeated
    );
    Ok(())
}

fn expected_line((number, bytes): &(u16, Vec<u8>)) -> String {
    format!("{number}\t{}\t{}\n", bytes.len(), hex::write(bytes))
}
