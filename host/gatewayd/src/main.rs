//! `gatewayd`: see `gatewayd --help`.

use gatewayd::log;
use gatewayd::options::{self, Command, HELP};
use gatewayd::run::{self, Ended, Failure};
use gatewayd::signals;
use gatewayd::socket::{self, Socket};
use gatewayd::store::setup;
use std::ffi::OsStr;
use std::os::unix::process::CommandExt;
use std::process::ExitCode;

fn main() -> ExitCode {
    match options::read(std::env::args_os().skip(1)) {
        Ok(Command::Help) => print!("{HELP}"),
        Ok(Command::Version) => println!("gatewayd {}", env!("CARGO_PKG_VERSION")),
        Ok(Command::SetUp) => print!("{}", setup::script()),
        Ok(Command::Run(options)) => {
            let ended = run::run(&options);
            if let Err(failure) = ended.and_then(|ended| match ended {
                Ended::ForGood => Ok(()),
                Ended::WithSuccessor(sockets) => Err(start_anew(sockets)),
            }) {
                eprintln!("gatewayd: {}", failure.what);
                return ExitCode::from(failure.status);
            }
        }
        Err(what) => {
            eprintln!("gatewayd: {what} (gatewayd --help tells the words)");
            return ExitCode::from(2);
        }
    }
    ExitCode::SUCCESS
}

/// The program as it now lies on the disk takes the place of this one, with the same words, but for
/// those that are good for one start, and the same sockets. Where it cannot be started (it is gone, or
/// is no program), this one starts once more. Comes back only if that fails, too.
fn start_anew(sockets: Vec<Socket>) -> Failure {
    let mut words = std::env::args_os();
    let program = words.next().unwrap_or_default();
    let words: Vec<_> = words.filter(|word| word != "--restored" && word != "--afresh").collect();
    let command = |path: &OsStr| {
        let mut command = std::process::Command::new(path);
        command.arg0(&program).args(&words);
        command
    };
    let mut new = command(&program);
    let error = match socket::hand_over(sockets, &mut new) {
        Ok(()) => {
            signals::ignore_new_start();
            let error = new.exec();
            log::complain(&format!("{}: {error}; the old program goes on", program.display()));
            let mut old = command(OsStr::new("/proc/self/exe"));
            old.envs(new.get_envs().filter_map(|(name, value)| Some((name, value?))));
            old.exec()
        }
        Err(error) => error,
    };
    Failure { status: 6, what: format!("no new start: {error}") }
}
