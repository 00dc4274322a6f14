//! Where the store is, and how it is opened there.

use super::engine::{Engine, Fault, Value};
use super::{place, postgres, schema, sqlite};
use std::fs::File;
use std::path::PathBuf;

/// Where the store is.
#[derive(Clone, PartialEq, Eq, Debug)]
pub enum Where {
    /// SQLite, in the state directory.
    Directory(PathBuf),
    /// PostgreSQL, at this address; any number of gateways.
    Server(String),
}

impl Where {
    /// Of the words `--state` and `--store`, one of which is said.
    pub fn said(state: Option<PathBuf>, address: Option<String>) -> Result<Where, String> {
        match (state, address) {
            (_, Some(address)) if is_server(&address) => Ok(Where::Server(address)),
            (_, Some(address)) => Err(format!("--store: {address} is no postgres://..")),
            (Some(state), None) => Ok(Where::Directory(state)),
            (None, None) => Err("--state DIRECTORY or --store ADDRESS is missing".to_string()),
        }
    }
}

fn is_server(address: &str) -> bool {
    ["postgres://", "postgresql://"].iter().any(|start| address.starts_with(start))
}

/// The store opened to write, with its name for what is said of it, and the lock that goes with it.
pub fn connect(at: &Where) -> Result<(String, Option<File>, Box<dyn Engine>), Fault> {
    match at {
        Where::Directory(state) => {
            let lock = place::prepare(state).map_err(Fault::Broken)?;
            let path = place::file(state);
            let name = path.display().to_string();
            let open = || -> Result<sqlite::Sqlite, Fault> {
                let mut engine = sqlite::Sqlite::open(&path)?;
                let tables = "SELECT COUNT(*) FROM sqlite_master";
                if engine.query(tables, &[])? == [[Value::Int(0)]] {
                    schema::make(&mut engine)?;
                }
                Ok(engine)
            };
            let engine = open().map_err(|fault| fault.of(&name))?;
            Ok((name, Some(lock), Box::new(engine)))
        }
        Where::Server(address) => {
            let engine = postgres::Postgres::open(address, false);
            Ok(("store".to_string(), None, Box::new(engine.map_err(|fault| fault.of("store"))?)))
        }
    }
}

/// The store opened to read: its tables are those of this program.
pub fn open_to_read(at: &Where) -> Result<Box<dyn Engine>, String> {
    let (name, engine): (String, Result<Box<dyn Engine>, Fault>) = match at {
        Where::Directory(state) => {
            let path = place::file(state);
            let engine = sqlite::Sqlite::open_to_read(&path);
            (path.display().to_string(), engine.map(|engine| Box::new(engine) as Box<dyn Engine>))
        }
        Where::Server(address) => {
            let engine = postgres::Postgres::open(address, true);
            ("store".to_string(), engine.map(|engine| Box::new(engine) as Box<dyn Engine>))
        }
    };
    let checked = engine.and_then(|mut engine| {
        schema::check(engine.as_mut())?;
        Ok(engine)
    });
    checked.map_err(|fault| format!("{name}: {}", fault.what()))
}
