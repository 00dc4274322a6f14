//! Both ends against each other over a bad link: HANDSHAKES of them, else 2,000.

use peer::console::Console;
use peer::links;
use peer::shipconsole::ShipConsole;

#[test]
fn both_ends_over_a_bad_link() {
    let count = std::env::var("HANDSHAKES").ok().and_then(|text| text.parse().ok());
    let count = count.unwrap_or(2_000);
    let (mut shore, mut ship) = (Console::default(), ShipConsole::default());
    let done = links::run(1, count, &mut shore, &mut ship, None).unwrap();
    print!("{done}");
    assert_eq!((done.handshakes, done.faultless), (count, count.div_ceil(4)));
    let most = done.reports.sent + done.orders.sent;
    let handed_out = done.reports.handed_out + done.orders.handed_out;
    assert!(handed_out <= most && 2 * handed_out > most, "{done}");
}
