//! What the store asks of a database: plain SQL, the same for each. Values are named $1, $2, .. in the order in which they first
//! appear.

#[derive(Clone, PartialEq, Eq, Debug)]
pub enum Value {
    Null,
    Int(i64),
    Text(String),
    Bytes(Vec<u8>),
}

pub type Row = Vec<Value>;

/// Why something was not done.
#[derive(Clone, PartialEq, Eq, Debug)]
pub enum Fault {
    /// The engine asks for the transaction once more: a serialization failure, a deadlock.
    Again(String),
    /// The store is not there, is in use, or has no room: once more, after a while.
    Away(String),
    /// It does not become better by waiting.
    Broken(String),
}

pub trait Engine {
    fn begin(&mut self) -> Result<(), Fault>;

    /// When this is done, the transaction is on the disk.
    fn commit(&mut self) -> Result<(), Fault>;

    /// After this there is no transaction, whatever went wrong before.
    fn roll_back(&mut self);

    fn query(&mut self, sql: &str, values: &[Value]) -> Result<Vec<Row>, Fault>;

    /// `head VALUES row, row, .. tail`; nothing where there is no row.
    fn put(&mut self, head: &str, rows: &[Row], tail: &str) -> Result<(), Fault>;

    /// The same for rows that are all there, if the engine has a shorter way for them.
    fn change(&mut self, head: &str, rows: &[Row], tail: &str) -> Result<(), Fault> {
        self.put(head, rows, tail)
    }

    /// The engine's words for what differs.
    fn words(&self) -> &'static Words;
}

pub struct Words {
    pub bytes: &'static str,
    /// A column that counts up.
    pub serial: &'static str,
    /// The store's own clock, in milliseconds since 1970.
    pub now: &'static str,
    /// Holds the rows that were read until the end of the transaction.
    pub lock: &'static str,
    /// Whether other gateways may write to the same store.
    pub is_shared: bool,
}

impl Fault {
    /// The same, of a store with a name.
    pub fn of(self, name: &str) -> Fault {
        let told = |what: String| format!("{name}: {what}");
        match self {
            Fault::Again(what) => Fault::Again(told(what)),
            Fault::Away(what) => Fault::Away(told(what)),
            Fault::Broken(what) => Fault::Broken(told(what)),
        }
    }

    pub fn what(&self) -> &str {
        match self {
            Fault::Again(what) | Fault::Away(what) | Fault::Broken(what) => what,
        }
    }
}

impl Value {
    pub fn int(&self) -> Option<i64> {
        match self {
            Value::Int(number) => Some(*number),
            _ => None,
        }
    }

    pub fn text(&self) -> Option<&str> {
        match self {
            Value::Text(text) => Some(text),
            _ => None,
        }
    }

    pub fn bytes(&self) -> Option<&[u8]> {
        match self {
            Value::Bytes(bytes) => Some(bytes),
            _ => None,
        }
    }
}

impl From<i64> for Value {
    fn from(number: i64) -> Value {
        Value::Int(number)
    }
}

impl From<&str> for Value {
    fn from(text: &str) -> Value {
        Value::Text(text.to_string())
    }
}

impl From<&[u8]> for Value {
    fn from(bytes: &[u8]) -> Value {
        Value::Bytes(bytes.to_vec())
    }
}

impl<T: Into<Value>> From<Option<T>> for Value {
    fn from(value: Option<T>) -> Value {
        value.map_or(Value::Null, Into::into)
    }
}

/// `$first, $first+1, ..`, so many.
pub fn places(first: usize, count: usize) -> String {
    let names: Vec<String> = (first..first + count).map(|place| format!("${place}")).collect();
    names.join(", ")
}
