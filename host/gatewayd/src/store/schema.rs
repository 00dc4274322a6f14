//! The tables, one form for every engine.

use super::engine::{Engine, Fault, Value, Words};
use gateway::{Connection, ID_SIZE, SECRET_SIZE, STATE_SIZE, TALLY_SIZE, WIDTH_LEAST};

/// Of the tables, and of what stands in them.
pub const VERSION: i64 = 1;

const TABLES: &str = "\
CREATE TABLE store (
    version INTEGER NOT NULL,
    layout TEXT NOT NULL        -- of the connections and tallies
);

CREATE TABLE ships (
    identifier BYTES PRIMARY KEY,
    name TEXT NOT NULL,
    planting BYTES NOT NULL,    -- which planting this is
    connection BYTES NOT NULL,  -- with the place of the secret blank
    hello BYTES NOT NULL,       -- from which the open connection came
    handshakes TEXT NOT NULL,   -- those under way
    tally BYTES NOT NULL,
    route TEXT,
    newest INTEGER NOT NULL,    -- the highest number under this opening
    opening BIGINT NOT NULL,    -- how often a Finished has opened a connection
    mute INTEGER NOT NULL,      -- 1: no number of ours is spent before the next opening
    heard BIGINT NOT NULL,
    barred BIGINT,
    version BIGINT NOT NULL,
    writer BIGINT NOT NULL,
    changed BIGINT NOT NULL
);

CREATE TABLE reports (
    id SERIAL,
    ship BYTES NOT NULL,
    opening BIGINT NOT NULL,
    number INTEGER NOT NULL,
    received BIGINT NOT NULL,
    bytes BYTES NOT NULL,
    UNIQUE (opening, number, ship)  -- in this order: ships that count in step are side by side
);

CREATE INDEX reports_received ON reports (received);

CREATE TABLE refusals (
    ship BYTES NOT NULL,
    hour BIGINT NOT NULL,
    refusal INTEGER NOT NULL,
    count BIGINT NOT NULL,
    last BIGINT NOT NULL,
    PRIMARY KEY (ship, hour, refusal)
);
";

/// Where others write, too, and what they have changed is looked for.
const SHARED: &str = "CREATE INDEX ships_changed ON ships (changed);";

/// The tables in an engine's words, each statement for itself.
pub fn statements(words: &Words) -> Vec<String> {
    let text: String = TABLES
        .lines()
        .map(|line| line.split("--").next().unwrap_or_default().trim_end().to_string() + "\n")
        .collect();
    let text = text.replace("BYTES", words.bytes).replace("SERIAL", words.serial);
    let text = text + if words.is_shared { SHARED } else { "" };
    text.split(';').map(str::trim).filter(|sql| !sql.is_empty()).map(str::to_string).collect()
}

/// The layout of what the library saves: the number in its mark, and the sizes.
pub fn layout() -> String {
    let fresh =
        Connection::fresh(&[1; ID_SIZE], &[1; SECRET_SIZE], WIDTH_LEAST).expect("sizes are right");
    format!("{}, {STATE_SIZE} and {TALLY_SIZE} bytes", fresh.save()[3])
}

/// Makes the tables in a store that has none.
pub fn make(engine: &mut dyn Engine) -> Result<(), Fault> {
    engine.begin()?;
    for sql in statements(engine.words()) {
        engine.query(&sql, &[])?;
    }
    let values = [VERSION.into(), layout()[..].into()];
    engine.query("INSERT INTO store (version, layout) VALUES ($1, $2)", &values)?;
    engine.commit()
}

/// Whether the tables are those of this program.
pub fn check(engine: &mut dyn Engine) -> Result<(), Fault> {
    let found = engine.query("SELECT version FROM store", &[])?;
    match found.first().and_then(|row| row.first()).and_then(Value::int) {
        Some(VERSION) => Ok(()),
        Some(other) => Err(Fault::Broken(format!(
            "tables of version {other}, and this program knows {VERSION}"
        ))),
        None => Err(Fault::Broken("tables without a version".to_string())),
    }
}

/// Whether the connections in them are those of this library.
pub fn check_layout(engine: &mut dyn Engine) -> Result<(), Fault> {
    let found = engine.query("SELECT layout FROM store", &[])?;
    let found = found.first().and_then(|row| row.first()).and_then(Value::text).unwrap_or("none");
    match found == layout() {
        true => Ok(()),
        false => Err(Fault::Broken(format!(
            "connections of layout {found}, and this gateway knows {}: start it once with --afresh, \
             and the ships say hello again",
            layout()
        ))),
    }
}
