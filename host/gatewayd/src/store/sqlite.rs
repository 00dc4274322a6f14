//! SQLite: one file, one gateway. The write-ahead log and synchronous FULL: a commit is on the disk when it is done.

use super::engine::{places, Engine, Fault, Row, Value, Words};
use super::row::{UPDATE, UPDATE_CONNECTION};
use rusqlite::config::DbConfig;
use rusqlite::types::{ToSqlOutput, ValueRef};
use rusqlite::{params_from_iter, Connection, ErrorCode, OpenFlags, ToSql};
use std::path::Path;
use std::time::Duration;

pub struct Sqlite {
    connection: Connection,
}

const WORDS: Words =
    Words { bytes: "BLOB", serial: "INTEGER PRIMARY KEY", now: "0", lock: "", is_shared: false };
/// Somebody else's lock is waited for so long; then the gateway looks at its signals.
const PATIENCE: Duration = Duration::from_millis(200);
const STATEMENTS: usize = 32;
/// Pages that are kept in memory, in kB: the rows of some 20,000 ships. What is not there is read again for each report.
const CACHE: i64 = 32 << 10;

impl Sqlite {
    /// To write; the file is there.
    pub fn open(path: &Path) -> Result<Sqlite, Fault> {
        let flags = OpenFlags::SQLITE_OPEN_READ_WRITE | OpenFlags::SQLITE_OPEN_NO_MUTEX;
        let sqlite = Sqlite::with(path, flags)?;
        let connection = &sqlite.connection;
        let mode: String = connection
            .query_row("PRAGMA journal_mode = WAL", [], |row| row.get(0))
            .map_err(fault_at_start)?;
        if mode != "wal" {
            return Err(Fault::Broken(format!("no write-ahead log here (journal mode {mode})")));
        }
        connection.pragma_update(None, "synchronous", "FULL").map_err(fault)?;
        connection.pragma_update(None, "cache_size", -CACHE).map_err(fault)?;
        // The files of the log stay at the end: who may only read could not make them.
        connection
            .set_db_config(DbConfig::SQLITE_DBCONFIG_NO_CKPT_ON_CLOSE, true)
            .map_err(fault)?;
        Ok(sqlite)
    }

    pub fn open_to_read(path: &Path) -> Result<Sqlite, Fault> {
        Sqlite::with(path, OpenFlags::SQLITE_OPEN_READ_ONLY | OpenFlags::SQLITE_OPEN_NO_MUTEX)
    }

    fn with(path: &Path, flags: OpenFlags) -> Result<Sqlite, Fault> {
        let connection = Connection::open_with_flags(path, flags).map_err(fault_at_start)?;
        connection.busy_timeout(PATIENCE).map_err(fault)?;
        connection.set_prepared_statement_cache_capacity(STATEMENTS);
        Ok(Sqlite { connection })
    }

    fn simple(&self, sql: &str) -> Result<(), Fault> {
        self.connection.prepare_cached(sql).and_then(|mut sql| sql.execute([])).map_err(fault)?;
        Ok(())
    }
}

impl Engine for Sqlite {
    fn begin(&mut self) -> Result<(), Fault> {
        self.simple("BEGIN IMMEDIATE")
    }

    fn commit(&mut self) -> Result<(), Fault> {
        self.simple("COMMIT")
    }

    fn roll_back(&mut self) {
        if !self.connection.is_autocommit() {
            // What cannot be rolled back is rolled back by the engine.
            let _ = self.simple("ROLLBACK");
        }
    }

    fn query(&mut self, sql: &str, values: &[Value]) -> Result<Vec<Row>, Fault> {
        let mut statement = self.connection.prepare_cached(sql).map_err(fault)?;
        let columns = statement.column_count();
        let mut found = statement.query(params_from_iter(values)).map_err(fault)?;
        let mut rows = Vec::new();
        while let Some(row) = found.next().map_err(fault)? {
            let value = |column| row.get_ref(column).map(value);
            rows.push((0..columns).map(value).collect::<Result<Row, _>>().map_err(fault)?);
        }
        Ok(rows)
    }

    fn put(&mut self, head: &str, rows: &[Row], tail: &str) -> Result<(), Fault> {
        let Some(first) = rows.first() else { return Ok(()) };
        let sql = format!("{head} VALUES ({}) {tail}", places(1, first.len()));
        let mut statement = self.connection.prepare_cached(&sql).map_err(fault)?;
        for row in rows {
            statement.execute(params_from_iter(row)).map_err(fault)?;
        }
        Ok(())
    }

    /// The rows of ships, which are all made at the start: not tried as new ones first, and only what has changed.
    fn change(&mut self, _: &str, rows: &[Row], _: &str) -> Result<(), Fault> {
        let mut whole = self.connection.prepare_cached(UPDATE).map_err(fault)?;
        let mut part = self.connection.prepare_cached(UPDATE_CONNECTION).map_err(fault)?;
        for row in rows {
            let statement =
                if row.len() == part.parameter_count() { &mut part } else { &mut whole };
            if statement.execute(params_from_iter(row)).map_err(fault)? != 1 {
                return Err(Fault::Broken("the row of a ship is gone".to_string()));
            }
        }
        Ok(())
    }

    fn words(&self) -> &'static Words {
        &WORDS
    }
}

impl ToSql for Value {
    fn to_sql(&self) -> rusqlite::Result<ToSqlOutput<'_>> {
        Ok(ToSqlOutput::Borrowed(match self {
            Value::Null => ValueRef::Null,
            Value::Int(number) => ValueRef::Integer(*number),
            Value::Text(text) => ValueRef::Text(text.as_bytes()),
            Value::Bytes(bytes) => ValueRef::Blob(bytes),
        }))
    }
}

fn value(found: ValueRef) -> Value {
    match found {
        ValueRef::Integer(number) => Value::Int(number),
        ValueRef::Text(text) => Value::Text(String::from_utf8_lossy(text).into_owned()),
        ValueRef::Blob(bytes) => Value::Bytes(bytes.to_vec()),
        ValueRef::Null | ValueRef::Real(_) => Value::Null,
    }
}

/// What cannot be opened at the start cannot be opened later: there are no rights to it.
fn fault_at_start(error: rusqlite::Error) -> Fault {
    match error.sqlite_error_code() {
        Some(ErrorCode::CannotOpen) => Fault::Broken(error.to_string()),
        _ => fault(error),
    }
}

fn fault(error: rusqlite::Error) -> Fault {
    let what = error.to_string();
    match error.sqlite_error_code() {
        Some(
            ErrorCode::DatabaseBusy
            | ErrorCode::DatabaseLocked
            | ErrorCode::DiskFull
            | ErrorCode::SystemIoFailure
            | ErrorCode::CannotOpen,
        ) => Fault::Away(what),
        _ => Fault::Broken(what),
    }
}
