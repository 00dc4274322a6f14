//! `peer`: the second implementation, run beside the proved one.

use std::io::{self, BufWriter, Read, Write};
use std::process::ExitCode;

use peer::{
    capture, console, dayconsole, dayfiles, days, handshakes, links, lists, parts, rng, rows,
    setlines, shipconsole, shipcover, shipstored, stored, whycover, wire,
};

const USAGE: &str = "\
peer console                       the lines that the console must write for those on stdin
peer lister                        the lines that the frame lister must write for stdin
peer day                           the stored day, as input for the console
peer long-day                      the day on which the sending numbers run out (refusal 15)
peer handshakes                    two worked handshakes, one `name hex` to a line
peer shipconsole                   the lines that the ship's console must write for those on stdin
peer shipday                       the stored day of a ship, as input for that console
peer ship-long-day                 the day on which its sending numbers run out
peer dayconsole                    the lines that the day console must write for those on stdin
peer dayfiles --seed S --count N   lines for the day console: N lists and damaged files
peer daycuts --seed S --count N     lines for the day console: every cut of N files, mended
peer setlines --seed S --count N    lines for the console: N calls, explicit sets by themselves and
                                   in hellos, sound and wrong
peer days --seed S --calls N [--spent K] [--keep FILE] --console PROGRAM [ARGUMENT ..]
                                   random days through PROGRAM, each line compared; K days on
                                   which sending numbers run out (else 3 to each 200,000 calls);
                                   FILE gets the few lines that make a difference
peer whys --seed S --calls N [--spent K] [--keep FILE] --console PROGRAM [ARGUMENT ..]
                                   the same for days on which each receive is preceded by `why`
                                   for each record of the datagram
peer whycover --seed S --calls N   how often each reason and each of its facts occurs on such days,
                                   each held to the receive that follows; 1 if one is missing or wrong
peer rows --seed S --days N          how often random days meet each row of Open; 1 if one is missing
peer shipdays --seed S --calls N [--spent K] [--keep FILE] --console PROGRAM [ARGUMENT ..]
                                   the same for the ship's console
peer shiplines --seed S --calls N   the calls of such days, as input for the ship's console
peer shipcover --seed S --calls N   how often each outcome of each call and each kind of record
                                   occurs in them, in each state
peer links [--seed S] [--handshakes N] [--shore CONSOLE] [--ship SHIPCONSOLE] [--capture FILE]
                                   both ends against each other over a bad link, else 2,000 times,
                                   by programs or else by the models; FILE gets what arrives,
                                   for tshark
peer lists --seed S --count N --lister PROGRAM [ARGUMENT ..]
                                   random datagrams through a frame lister
peer parts --seed S --count N --gatherer PROGRAM [ARGUMENT ..]
                                   random short messages, sound and damaged, through a gatherer
";

fn main() -> ExitCode {
    let arguments: Vec<String> = std::env::args().skip(1).collect();
    let words: Vec<&str> = arguments.iter().map(String::as_str).collect();
    let done = match words[..] {
        ["console"] => console::run(io::stdin().lock(), BufWriter::new(io::stdout().lock())),
        ["lister"] => lister(),
        ["day"] => print(&stored::day()),
        ["long-day"] => print(&stored::long_day()),
        ["shipday"] => print(&shipstored::day()),
        ["ship-long-day"] => print(&shipstored::long_day()),
        ["handshakes"] => print(&handshakes::worked()),
        ["shipconsole"] => {
            shipconsole::run(io::stdin().lock(), BufWriter::new(io::stdout().lock()))
        }
        ["dayconsole"] => dayconsole::run(io::stdin().lock(), BufWriter::new(io::stdout().lock())),
        ["dayfiles", "--seed", seed, "--count", count] => day_files(seed, count, dayfiles::lines),
        ["daycuts", "--seed", seed, "--count", count] => day_files(seed, count, dayfiles::cuts),
        ["setlines", "--seed", seed, "--count", count] => set_lines(seed, count),
        ["days", ..] => return run_days::<days::Ashore>(&words[1..]),
        ["whys", ..] => return run_days::<days::Asking>(&words[1..]),
        ["whycover", "--seed", seed, "--calls", calls] => {
            return run_why_cover(seed.parse().ok(), calls.parse().ok())
        }
        ["shipdays", ..] => return run_days::<days::Aboard>(&words[1..]),
        ["shiplines", "--seed", seed, "--calls", calls] => ship_lines(seed, calls),
        ["shipcover", "--seed", seed, "--calls", calls] => ship_cover(seed, calls),
        ["links", ..] => return run_links(&words[1..]),
        ["rows", "--seed", seed, "--days", days] => {
            return run_rows(seed.parse().ok(), days.parse().ok())
        }
        ["lists", "--seed", seed, "--count", count, "--lister", ..] => {
            return run_many(lists::run, seed.parse().ok(), count.parse().ok(), &words[6..])
        }
        ["parts", "--seed", seed, "--count", count, "--gatherer", ..] => {
            return run_many(parts::run, seed.parse().ok(), count.parse().ok(), &words[6..])
        }
        _ => {
            eprint!("{USAGE}");
            return ExitCode::from(2);
        }
    };
    match done {
        Ok(()) => ExitCode::SUCCESS,
        Err(error) => {
            eprintln!("peer: {error}");
            ExitCode::FAILURE
        }
    }
}

fn print(text: &str) -> io::Result<()> {
    io::stdout().write_all(text.as_bytes())
}

fn day_files(seed: &str, count: &str, made: fn(&mut rng::Rng) -> String) -> io::Result<()> {
    let (Ok(seed), Ok(count)) = (seed.parse(), count.parse::<u64>()) else {
        return Err(io::Error::other("seed and count are numbers"));
    };
    let mut rng = rng::Rng::new(seed);
    let mut output = BufWriter::new(io::stdout().lock());
    for _ in 0..count {
        output.write_all(made(&mut rng).as_bytes())?;
    }
    output.flush()
}

fn set_lines(seed: &str, count: &str) -> io::Result<()> {
    let (Ok(seed), Ok(count)) = (seed.parse(), count.parse::<u64>()) else {
        return Err(io::Error::other("seed and count are numbers"));
    };
    let mut rng = rng::Rng::new(seed);
    let mut output = BufWriter::new(io::stdout().lock());
    writeln!(output, "{}", setlines::fresh())?;
    for _ in 1..count {
        writeln!(output, "{}", setlines::line(&mut rng))?;
    }
    output.flush()
}

/// The calls of random days of a ship, without a program; those on which numbers run out are left out.
fn ship_plan(seed: &str, calls: &str) -> io::Result<days::Plan> {
    let words = ["--seed", seed, "--calls", calls, "--spent", "0", "--console", "-"];
    days::Plan::read(&words).ok_or(io::Error::other("seed and calls are numbers"))
}

fn ship_lines(seed: &str, calls: &str) -> io::Result<()> {
    let mut output = BufWriter::new(io::stdout().lock());
    days::make_days::<days::Aboard>(&ship_plan(seed, calls)?, |_, line, _| {
        output.write_all(&[line, b"\n"].concat()).is_ok()
    });
    output.flush()
}

fn ship_cover(seed: &str, calls: &str) -> io::Result<()> {
    let mut coverage = shipcover::Coverage::default();
    days::make_days::<days::Aboard>(&ship_plan(seed, calls)?, |_, line, lines| {
        coverage.line(line, &lines);
        true
    });
    print(&coverage.to_string())
}

fn lister() -> io::Result<()> {
    let mut datagram = Vec::new();
    io::stdin().read_to_end(&mut datagram)?;
    print(&wire::list(&datagram))
}

fn run_days<E: days::End>(words: &[&str]) -> ExitCode {
    let Some(plan) = days::Plan::read(words) else {
        eprint!("{USAGE}");
        return ExitCode::from(2);
    };
    match days::run::<E>(&plan) {
        Ok(report) => {
            print!("{report}");
            ExitCode::SUCCESS
        }
        Err(difference) => {
            print!("{difference}");
            ExitCode::FAILURE
        }
    }
}

/// Both ends against each other; each is the model unless a program is named.
fn both_ends(words: &[&str]) -> Result<links::Done, String> {
    let (mut seed, mut count, mut capture) = (1, 2_000, None);
    let mut shore: Box<dyn links::Lines> = Box::new(console::Console::default());
    let mut ship: Box<dyn links::Lines> = Box::new(shipconsole::ShipConsole::default());
    for pair in words.chunks(2) {
        let told = |error: io::Error| error.to_string();
        match *pair {
            ["--seed", value] => seed = value.parse().map_err(|_| "the seed is a number")?,
            ["--handshakes", value] => {
                count = value.parse().map_err(|_| "the count is a number")?
            }
            ["--shore", program] => shore = Box::new(links::Program::start(program)?),
            ["--ship", program] => ship = Box::new(links::Program::start(program)?),
            ["--capture", path] => {
                capture = Some(capture::Capture::create(path.as_ref()).map_err(told)?)
            }
            _ => return Err(USAGE.to_string()),
        }
    }
    links::run(seed, count, &mut shore, &mut ship, capture)
}

fn run_links(words: &[&str]) -> ExitCode {
    match both_ends(words) {
        Ok(done) => {
            print!("{done}");
            ExitCode::SUCCESS
        }
        Err(what) => {
            println!("{what}");
            ExitCode::FAILURE
        }
    }
}

/// A comparison of many random inputs.
type Run = fn(u64, u64, &[&str]) -> Result<String, String>;

fn run_many(run: Run, seed: Option<u64>, count: Option<u64>, program: &[&str]) -> ExitCode {
    let (Some(seed), Some(count), false) = (seed, count, program.is_empty()) else {
        eprint!("{USAGE}");
        return ExitCode::from(2);
    };
    match run(seed, count, program) {
        Ok(report) => {
            print!("{report}");
            ExitCode::SUCCESS
        }
        Err(difference) => {
            print!("{difference}");
            ExitCode::FAILURE
        }
    }
}

fn run_rows(seed: Option<u64>, days: Option<u64>) -> ExitCode {
    let (Some(seed), Some(days)) = (seed, days) else {
        eprint!("{USAGE}");
        return ExitCode::from(2);
    };
    let rows = rows::of_days(seed, days);
    print!("{rows}");
    ExitCode::from(u8::from(!rows.missing().is_empty()))
}

fn run_why_cover(seed: Option<u64>, calls: Option<u64>) -> ExitCode {
    let (Some(seed), Some(calls)) = (seed, calls) else {
        eprint!("{USAGE}");
        return ExitCode::from(2);
    };
    let cover = whycover::of_days(seed, calls);
    print!("{cover}");
    ExitCode::from(u8::from(!cover.missing().is_empty() || !cover.wrong.is_empty()))
}
