//! `reports`: see `reports --help`.

use gatewayd::clock::Moment;
use gatewayd::reports::follow::Follow;
use gatewayd::reports::options::{self, Command, Options, HELP};
use gatewayd::reports::{each, missing};
use gatewayd::store::engine::{Engine, Fault};
use gatewayd::store::open_to_read;
use std::io::{self, Write};
use std::process::ExitCode;
use std::thread;
use std::time::Duration;

const LOOK_EVERY: Duration = Duration::from_millis(200);

fn main() -> ExitCode {
    match options::read(std::env::args_os().skip(1)) {
        Ok(Command::Help) => print!("{HELP}"),
        Ok(Command::Version) => println!("reports {}", env!("CARGO_PKG_VERSION")),
        Ok(Command::List(options)) => {
            let done = open_to_read(&options.store).and_then(|mut engine| {
                list(&options, engine.as_mut()).map_err(|fault| fault.what().to_string())
            });
            if let Err(what) = done {
                eprintln!("reports: {what}");
                return ExitCode::from(4);
            }
        }
        Err(what) => {
            eprintln!("reports: {what} (reports --help tells the words)");
            return ExitCode::from(2);
        }
    }
    ExitCode::SUCCESS
}

fn list(options: &Options, engine: &mut dyn Engine) -> Result<(), Fault> {
    let Options { wanted, form, .. } = options;
    say(form.head(options.missing));
    if options.missing {
        for gap in missing::gaps(engine, wanted)? {
            say(&form.gap(&gap));
        }
    } else if options.follow {
        let mut follow = Follow::default();
        loop {
            match follow.next(engine, wanted, Moment::now(), |line| say(&form.line(line))) {
                Err(Fault::Broken(what)) => return Err(Fault::Broken(what)),
                // It comes back, or the one who follows gives up.
                Err(Fault::Again(_) | Fault::Away(_)) => engine.roll_back(),
                Ok(()) => {}
            }
            flush();
            thread::sleep(LOOK_EVERY);
        }
    } else {
        each(engine, wanted, 0, |line| say(&form.line(line)))?;
    }
    flush();
    Ok(())
}

/// Whoever reads it may have had enough; that is no fault.
fn say(text: &str) {
    if io::stdout().write_all(text.as_bytes()).is_err() {
        std::process::exit(0);
    }
}

fn flush() {
    if io::stdout().flush().is_err() {
        std::process::exit(0);
    }
}
