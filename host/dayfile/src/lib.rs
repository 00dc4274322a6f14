//! The day's list as one file, over the proved library.
//!
//! ```text
//! let file = dayfile::write(&[Report { number: 1, bytes: vec![0xaa] }])?;
//! for report in dayfile::read(&file)? { .. }
//! ```

pub mod raw;
mod refusal;

pub use refusal::Refusal;

/// The limits of a file and of a report.
pub const MOST_BYTES: usize = 65_536;
pub const MOST_REPORTS: usize = 4_096;
pub const MOST_IN_REPORT: usize = 1_400;

/// What a report and a file have besides the bytes of the reports.
const HEAD: usize = 5;
const DISTANCE: usize = 2;
const FRAME: usize = 3;

/// A report of the list.
#[derive(Clone, PartialEq, Eq, Debug)]
pub struct Report {
    pub number: u16,
    pub bytes: Vec<u8>,
}

/// How many bytes the file of a list has.
pub fn size(list: &[Report]) -> usize {
    list.iter().map(|report| HEAD + DISTANCE + report.bytes.len()).sum::<usize>() + FRAME
}

/// The file of a list.
pub fn write(list: &[Report]) -> Result<Vec<u8>, Refusal> {
    let numbers: Vec<u16> = list.iter().map(|report| report.number).collect();
    let sizes: Vec<usize> = list.iter().map(|report| report.bytes.len()).collect();
    let bytes: Vec<u8> = list.iter().flat_map(|report| report.bytes.iter().copied()).collect();
    let mut file = vec![0; size(list).min(MOST_BYTES)];
    let written = done(raw::write(&numbers, &sizes, &bytes, &mut file))?;
    file.truncate(written);
    Ok(file)
}

/// The list of a file: each report is found behind the one before.
pub fn read(file: &[u8]) -> Result<Vec<Report>, Refusal> {
    let count = done(raw::read(file))?;
    let mut list = Vec::with_capacity(count);
    let mut at = 0;
    while let Some((number, bytes)) = report(file, at) {
        at += HEAD + bytes.len();
        list.push(Report { number, bytes: bytes.to_vec() });
    }
    Ok(list)
}

/// The whole report that begins at a place: its number and its bytes.
pub fn report(file: &[u8], at: usize) -> Option<(u16, &[u8])> {
    let told = raw::report(file, at);
    if told == 0 {
        return None;
    }
    let start = at + HEAD;
    Some(((told >> 16) as u16, &file[start..start + (told & 0xffff) as usize]))
}

/// A mended file, and what is said of it.
#[derive(Clone, PartialEq, Eq, Debug)]
pub struct Mended {
    pub file: Vec<u8>,
    /// How many reports were kept.
    pub kept: usize,
    /// How many bytes stood after them.
    pub after: usize,
    pub changed: bool,
}

/// The file of the longest run of whole reports from the front.
pub fn mend(file: &[u8]) -> Result<Mended, Refusal> {
    let mut out = vec![0; MOST_BYTES];
    let told = done(raw::mend(file, &mut out))?;
    let (changed, kept, after) = (told >> 31 == 1, told >> 17 & 0x3fff, told & 0x1ffff);
    out.truncate(file.len() - after + FRAME + DISTANCE * kept);
    Ok(Mended { file: out, kept, after, changed })
}

/// What a call told, or why it was refused.
fn done(result: u64) -> Result<usize, Refusal> {
    match Refusal::numbered((result >> 32) as u32) {
        Some(refusal) => Err(refusal),
        None => Ok((result & 0xffff_ffff) as usize),
    }
}
