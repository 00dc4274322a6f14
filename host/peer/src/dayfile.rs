//! The day's list as a file (change request P9) and its mending (P10), from its words alone: the reports one behind the
//! other, then a trailer with each report's distance back from the trailer's start, and the count.

/// A report of the list.
#[derive(Clone, PartialEq, Eq, Debug)]
pub struct Report {
    pub number: u16,
    pub bytes: Vec<u8>,
}

pub const MOST_REPORTS: usize = 4096;
pub const MOST_BYTES: usize = 64 * 1024;

/// The file of a list, or the number of the refusal: 16, then 24, then 6.
pub fn write(list: &[Report], room: usize) -> Result<Vec<u8>, u8> {
    if !list.iter().all(|report| (1..=1400).contains(&report.bytes.len())) {
        return Err(16);
    }
    let size = list.iter().map(|report| report.bytes.len() + 7).sum::<usize>() + 3;
    if list.len() > MOST_REPORTS || size > MOST_BYTES {
        return Err(24);
    }
    if size > room {
        return Err(6);
    }
    Ok(file(list))
}

/// The bytes of a list that is within the limits.
pub fn file(list: &[Report]) -> Vec<u8> {
    let mut file = Vec::new();
    let mut starts = Vec::new();
    for report in list {
        starts.push(file.len());
        file.push(0xd1);
        file.extend(report.number.to_be_bytes());
        file.extend((report.bytes.len() as u16).to_be_bytes());
        file.extend(&report.bytes);
    }
    let trailer = file.len();
    file.push(0xd2);
    for start in starts {
        file.extend(((trailer - start) as u16).to_be_bytes());
    }
    file.extend((list.len() as u16).to_be_bytes());
    file
}

/// The list of a file: 24 over 64 KiB, 25 where the bytes are the file of no list. The count says
/// where the trailer starts, the distances where the reports do.
pub fn read(file: &[u8]) -> Result<Vec<Report>, u8> {
    if file.len() > MOST_BYTES {
        return Err(24);
    }
    by_trailer(file).ok_or(25)
}

fn by_trailer(file: &[u8]) -> Option<Vec<Report>> {
    let count = pair(file, file.len().checked_sub(2)?)?;
    let trailer = file.len().checked_sub(3 + 2 * count)?;
    if count > MOST_REPORTS || file[trailer] != 0xd2 {
        return None;
    }
    let mut list = Vec::new();
    let mut end = 0;
    for index in 0..count {
        let start = trailer.checked_sub(pair(file, trailer + 1 + 2 * index)?)?;
        if start != end {
            return None;
        }
        let (report, next) = whole(&file[..trailer], start)?;
        list.push(report);
        end = next;
    }
    (end == trailer).then_some(list)
}

/// The whole report at a place, and where it ends.
fn whole(file: &[u8], start: usize) -> Option<(Report, usize)> {
    if *file.get(start)? != 0xd1 {
        return None;
    }
    let number = pair(file, start + 1)? as u16;
    let size = pair(file, start + 3)?;
    if !(1..=1400).contains(&size) {
        return None;
    }
    let bytes = file.get(start + 5..start + 5 + size)?.to_vec();
    Some((Report { number, bytes }, start + 5 + size))
}

fn pair(file: &[u8], at: usize) -> Option<usize> {
    let bytes = file.get(at..at + 2)?;
    Some(usize::from(bytes[0]) * 256 + usize::from(bytes[1]))
}

/// A mended file, and what is said of it.
#[derive(PartialEq, Eq, Debug)]
pub struct Mended {
    pub file: Vec<u8>,
    pub kept: usize,
    pub after: usize,
    pub changed: bool,
}

/// The longest run of whole reports from the front, with a new trailer: 24, then 6.
pub fn mend(lent: &[u8], room: usize) -> Result<Mended, u8> {
    if lent.len() > MOST_BYTES {
        return Err(24);
    }
    let mut list = Vec::new();
    let mut end = 0;
    while let Some((report, next)) = whole(lent, end) {
        list.push(report);
        end = next;
    }
    let file = write(&list, room)?;
    let changed = file != lent;
    Ok(Mended { file, kept: list.len(), after: lent.len() - end, changed })
}
