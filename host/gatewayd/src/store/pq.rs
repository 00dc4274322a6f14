//! PostgreSQL's own client library, by its C interface: the dozen calls that the store needs. Only here is its unsafe code.

use super::engine::{Row, Value};
use crate::hex;
use std::ffi::{c_char, c_int, c_void, CStr, CString};
use std::ptr::{null, null_mut};

#[link(name = "pq")]
extern "C" {
    fn PQconnectdbParams(
        keywords: *const *const c_char,
        values: *const *const c_char,
        expand_dbname: c_int,
    ) -> *mut c_void;
    fn PQpingParams(
        keywords: *const *const c_char,
        values: *const *const c_char,
        expand_dbname: c_int,
    ) -> c_int;
    fn PQstatus(connection: *const c_void) -> c_int;
    fn PQerrorMessage(connection: *const c_void) -> *const c_char;
    fn PQfinish(connection: *mut c_void);
    fn PQexecParams(
        connection: *mut c_void,
        command: *const c_char,
        count: c_int,
        types: *const u32,
        values: *const *const c_char,
        lengths: *const c_int,
        formats: *const c_int,
        result_format: c_int,
    ) -> *mut c_void;
    fn PQresultStatus(result: *const c_void) -> c_int;
    fn PQresultErrorField(result: *const c_void, field: c_int) -> *const c_char;
    fn PQntuples(result: *const c_void) -> c_int;
    fn PQnfields(result: *const c_void) -> c_int;
    fn PQftype(result: *const c_void, column: c_int) -> u32;
    fn PQgetisnull(result: *const c_void, row: c_int, column: c_int) -> c_int;
    fn PQgetvalue(result: *const c_void, row: c_int, column: c_int) -> *const c_char;
    fn PQgetlength(result: *const c_void, row: c_int, column: c_int) -> c_int;
    fn PQclear(result: *mut c_void);
    fn PQsetNoticeProcessor(
        connection: *mut c_void,
        processor: extern "C" fn(*mut c_void, *const c_char),
        argument: *mut c_void,
    ) -> *const c_void;
}

const CONNECTION_OK: c_int = 0;
const COMMAND_OK: c_int = 1;
const TUPLES_OK: c_int = 2;
const BINARY: c_int = 1;
/// Types, by their numbers.
const BYTEA: u32 = 17;
const INTEGERS: [u32; 3] = [20, 21, 23];

/// A connection to a server.
pub struct Client(*mut c_void);

// It is used by one thread at a time.
unsafe impl Send for Client {}

/// What the server says of an error: its code of five characters, none if the connection is lost; and one line.
#[derive(Debug)]
pub struct Error {
    pub code: Option<String>,
    pub what: String,
}

impl Client {
    /// The options come first; what the address says outweighs them.
    pub fn connect(address: &str, options: &[(&str, &str)]) -> Result<Client, Error> {
        let client = Client(with_words(address, options, |names, values| {
            // Safety: as `with_words` says.
            unsafe { PQconnectdbParams(names, values, 1) }
        })?);
        unsafe { PQsetNoticeProcessor(client.0, say_nothing, null_mut()) };
        match client.is_there() {
            true => Ok(client),
            false => Err(client.error(None)),
        }
    }

    pub fn is_there(&self) -> bool {
        // Safety: the connection is there until it is dropped.
        unsafe { PQstatus(self.0) == CONNECTION_OK }
    }

    pub fn run(&mut self, sql: &str, values: &[Value]) -> Result<Vec<Row>, Error> {
        let sql = c_string(sql)?;
        let sent = values.iter().map(Sent::of).collect::<Result<Vec<_>, _>>()?;
        let pointers: Vec<_> = sent.iter().map(Sent::pointer).collect();
        let lengths: Vec<c_int> = sent.iter().map(|one| one.length).collect();
        let formats: Vec<c_int> = sent.iter().map(|one| one.format).collect();
        // Safety: as many values, lengths and formats as it is told, alive until the call is over.
        let result = Answer(unsafe {
            PQexecParams(
                self.0,
                sql.as_ptr(),
                values.len() as c_int,
                null(),
                pointers.as_ptr(),
                lengths.as_ptr(),
                formats.as_ptr(),
                0,
            )
        });
        match result.status() {
            COMMAND_OK | TUPLES_OK => Ok(result.rows()),
            _ => Err(self.error(Some(&result))),
        }
    }

    fn error(&self, answer: Option<&Answer>) -> Error {
        const SQLSTATE: c_int = b'C' as c_int;
        const PRIMARY: c_int = b'M' as c_int;
        // Safety: the texts belong to the connection and to the answer, and are copied at once.
        unsafe {
            let field = |field| answer.and_then(|answer| text(PQresultErrorField(answer.0, field)));
            let code = if self.is_there() { field(SQLSTATE) } else { None };
            let what = field(PRIMARY).or_else(|| text(PQerrorMessage(self.0)));
            Error { code, what: one_line(&what.unwrap_or_default()) }
        }
    }
}

/// Whether a server is there that takes connections, be it none of ours; or the address is none.
pub fn answers(address: &str, options: &[(&str, &str)]) -> bool {
    const PING_OK: c_int = 0;
    const NO_ATTEMPT: c_int = 3;
    let found = with_words(address, options, |names, values| {
        // Safety: as `with_words` says.
        unsafe { PQpingParams(names, values, 1) }
    });
    !matches!(found, Ok(other) if other != PING_OK && other != NO_ATTEMPT)
}

/// Names and values of the words, both lists with a null at the end; what they point to lives until the call is over.
fn with_words<T>(
    address: &str,
    options: &[(&str, &str)],
    call: impl FnOnce(*const *const c_char, *const *const c_char) -> T,
) -> Result<T, Error> {
    let mut texts = Vec::new();
    for (name, value) in options.iter().copied().chain([("dbname", address)]) {
        texts.push((c_string(name)?, c_string(value)?));
    }
    let end = [null()];
    let names: Vec<_> = texts.iter().map(|text| text.0.as_ptr()).chain(end).collect();
    let values: Vec<_> = texts.iter().map(|text| text.1.as_ptr()).chain(end).collect();
    Ok(call(names.as_ptr(), values.as_ptr()))
}

impl Drop for Client {
    fn drop(&mut self) {
        // Safety: it is not used any more.
        unsafe { PQfinish(self.0) };
    }
}

/// A value on its way: bytes as they are, everything else as text.
struct Sent {
    bytes: Option<Vec<u8>>,
    length: c_int,
    format: c_int,
}

impl Sent {
    fn of(value: &Value) -> Result<Sent, Error> {
        let as_text = |text: &str| {
            let bytes = Some(c_string(text)?.into_bytes_with_nul());
            Ok(Sent { bytes, length: 0, format: 0 })
        };
        match value {
            Value::Null => Ok(Sent { bytes: None, length: 0, format: 0 }),
            Value::Int(number) => as_text(&number.to_string()),
            Value::Text(text) => as_text(text),
            Value::Bytes(bytes) => Ok(Sent {
                // Never without a place to point to.
                bytes: Some([&bytes[..], &[0]].concat()),
                length: bytes.len() as c_int,
                format: BINARY,
            }),
        }
    }

    fn pointer(&self) -> *const c_char {
        self.bytes.as_ref().map_or(null(), |bytes| bytes.as_ptr().cast())
    }
}

struct Answer(*mut c_void);

impl Answer {
    fn status(&self) -> c_int {
        // Safety: the call takes a null, too.
        unsafe { PQresultStatus(self.0) }
    }

    fn rows(&self) -> Vec<Row> {
        // Safety: rows and columns are those that the answer has.
        unsafe {
            let columns = PQnfields(self.0);
            let row = |row| (0..columns).map(|column| self.value(row, column)).collect();
            (0..PQntuples(self.0)).map(row).collect()
        }
    }

    unsafe fn value(&self, row: c_int, column: c_int) -> Value {
        if PQgetisnull(self.0, row, column) != 0 {
            return Value::Null;
        }
        let length = PQgetlength(self.0, row, column) as usize;
        let bytes = std::slice::from_raw_parts(PQgetvalue(self.0, row, column).cast(), length);
        let text = String::from_utf8_lossy(bytes);
        match PQftype(self.0, column) {
            BYTEA => {
                let digits = text.strip_prefix("\\x").unwrap_or(&text);
                hex::read(digits).map_or(Value::Null, Value::Bytes)
            }
            kind if INTEGERS.contains(&kind) => text.parse().map_or(Value::Null, Value::Int),
            _ => Value::Text(text.into_owned()),
        }
    }
}

impl Drop for Answer {
    fn drop(&mut self) {
        // Safety: it is not used any more.
        unsafe { PQclear(self.0) };
    }
}

extern "C" fn say_nothing(_: *mut c_void, _: *const c_char) {}

unsafe fn text(pointer: *const c_char) -> Option<String> {
    (!pointer.is_null()).then(|| CStr::from_ptr(pointer).to_string_lossy().into_owned())
}

fn one_line(text: &str) -> String {
    text.split_whitespace().collect::<Vec<_>>().join(" ")
}

fn c_string(text: &str) -> Result<CString, Error> {
    CString::new(text).map_err(|_| Error { code: Some(String::new()), what: "a zero byte".into() })
}
