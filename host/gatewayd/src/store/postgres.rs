//! PostgreSQL, or what speaks its protocol: one store for several gateways. Rows are locked for the length of a transaction.

use super::engine::{places, Engine, Fault, Row, Value, Words};
use super::pq::{self, Client, Error};

pub struct Postgres {
    address: String,
    /// None while the connection is lost.
    client: Option<Client>,
    read_only: bool,
    in_transaction: bool,
}

pub const WORDS: Words = Words {
    bytes: "BYTEA",
    serial: "BIGSERIAL PRIMARY KEY",
    now: "CAST(EXTRACT(EPOCH FROM now()) * 1000 AS BIGINT)",
    lock: "FOR UPDATE",
    is_shared: true,
};
/// What the address may say otherwise. A server that is gone is noticed within these times.
const OPTIONS: [(&str, &str); 3] = [
    ("fallback_application_name", "gatewayd"),
    ("connect_timeout", "5"),
    ("tcp_user_timeout", "10000"),
];
/// A commit is on the disk when it is done, whatever the server's default; nobody waits for a lock for ever, and a gateway that was
/// stopped in its transaction does not keep its locks.
const TO_WRITE: [&str; 3] = [
    "SET synchronous_commit TO on",
    "SET lock_timeout TO '10s'",
    "SET idle_in_transaction_session_timeout TO '10s'",
];
const TO_READ: [&str; 1] = ["SET default_transaction_read_only TO on"];
/// Values in one statement: the protocol counts them in 16 bits.
const MOST_VALUES: usize = 30_000;

impl Postgres {
    pub fn open(address: &str, read_only: bool) -> Result<Postgres, Fault> {
        let mut engine = Postgres {
            address: address.to_string(),
            client: None,
            read_only,
            in_transaction: false,
        };
        match engine.client() {
            // It is there, and has nothing for us: no such role, no such database. Asked twice, since it may have come back just now.
            Err(Fault::Away(_)) if pq::answers(address, &OPTIONS) => {
                engine.client().map_err(|fault| Fault::Broken(fault.what().to_string()))?;
            }
            tried => drop(tried?),
        }
        Ok(engine)
    }

    /// The connection, made again if it was lost.
    fn client(&mut self) -> Result<&mut Client, Fault> {
        if self.client.as_ref().is_none_or(|client| !client.is_there()) {
            self.client = None;
            let mut client = Client::connect(&self.address, &OPTIONS)
                .map_err(|error| Fault::Away(error.what))?;
            let settings = if self.read_only { &TO_READ[..] } else { &TO_WRITE };
            for setting in settings {
                client.run(setting, &[]).map_err(fault)?;
            }
            self.client = Some(client);
        }
        self.client.as_mut().ok_or_else(|| Fault::Away("not connected".to_string()))
    }

    fn run(&mut self, sql: &str, values: &[Value]) -> Result<Vec<Row>, Fault> {
        // A transaction does not go on over another connection.
        let lost = self.client.as_ref().is_none_or(|client| !client.is_there());
        if lost && self.in_transaction {
            return Err(Fault::Away("the connection to the store is lost".to_string()));
        }
        self.client()?.run(sql, values).map_err(fault)
    }
}

impl Engine for Postgres {
    fn begin(&mut self) -> Result<(), Fault> {
        self.run("BEGIN", &[])?;
        self.in_transaction = true;
        Ok(())
    }

    fn commit(&mut self) -> Result<(), Fault> {
        self.run("COMMIT", &[])?;
        self.in_transaction = false;
        Ok(())
    }

    fn roll_back(&mut self) {
        if std::mem::take(&mut self.in_transaction) {
            let rolled_back = self.client.as_mut().map(|client| client.run("ROLLBACK", &[]));
            // The end of the connection is the end of its transaction, too.
            if !matches!(rolled_back, Some(Ok(_))) {
                self.client = None;
            }
        }
    }

    fn query(&mut self, sql: &str, values: &[Value]) -> Result<Vec<Row>, Fault> {
        self.run(sql, values)
    }

    fn put(&mut self, head: &str, rows: &[Row], tail: &str) -> Result<(), Fault> {
        let Some(columns) = rows.first().map(Vec::len) else { return Ok(()) };
        for some in rows.chunks(MOST_VALUES / columns) {
            let lists: Vec<String> = (0..some.len())
                .map(|row| format!("({})", places(1 + row * columns, columns)))
                .collect();
            let sql = format!("{head} VALUES {} {tail}", lists.join(", "));
            self.run(&sql, &some.concat())?;
        }
        Ok(())
    }

    fn words(&self) -> &'static Words {
        &WORDS
    }
}

/// Codes, or their beginnings, of a server that is not there for us now: 08 the connection, 25006 it may only be read, 25P03 we were
/// silent too long, 53 no room or no memory, 55P03 a lock waited for in vain, 57P it ends or begins, 58 its system.
const AWAY: [&str; 7] = ["08", "25006", "25P03", "53", "55P03", "57P", "58"];

/// By its code; those of class 40 ask for the transaction once more.
fn fault(error: Error) -> Fault {
    let Error { code, what } = error;
    match code.as_deref() {
        None => Fault::Away(what),
        Some(code) if code.starts_with("40") => Fault::Again(what),
        Some(code) if AWAY.iter().any(|class| code.starts_with(class)) => Fault::Away(what),
        Some(_) => Fault::Broken(what),
    }
}
