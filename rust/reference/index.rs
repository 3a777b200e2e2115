// Document 02, 2026-08: the index of standing records: a u16 count, then an entry for each name shown, rising by name bytes, a name that
// begins another first. An entry is a u16 name count, the name, and a u32 start of that name's last record. It stands at its buffer's front.

use std::collections::BTreeMap;

/// The index that is handed is not the journal's; its buffer cannot hold the one with the record finished.
pub const NOT_ITS: u64 = 14;
pub const NO_ROOM: u64 = 15;

/// A name and a start in the journal: of a record, or of an entry.
pub type Named<'a> = (&'a [u8], usize);

/// The index of records by their names and starts, in the journal's order.
pub fn index_of<'a>(records: impl Iterator<Item = Named<'a>>) -> Vec<u8> {
    let entries = entries_of(records);
    bytes_of(entries.len(), &entries)
}

/// Its entries: the last start of each name, rising by name bytes.
pub fn entries_of<'a>(records: impl Iterator<Item = Named<'a>>) -> Vec<Named<'a>> {
    let starts: BTreeMap<&[u8], usize> = records.collect();
    starts.into_iter().collect()
}

/// The bytes of a count and entries.
pub fn bytes_of(count: usize, entries: &[Named]) -> Vec<u8> {
    let mut bytes = (count as u16).to_le_bytes().to_vec();
    for (name, start) in entries {
        bytes.extend((name.len() as u16).to_le_bytes());
        bytes.extend(*name);
        bytes.extend((*start as u32).to_le_bytes());
    }
    bytes
}

/// The name of a record that stands, from its bytes.
pub fn name_of(record: &[u8]) -> &[u8] {
    let count = u16::from_le_bytes([record[4], record[5]]);
    &record[6..6 + usize::from(count)]
}

/// What becomes of the buffer that a call is handed: refused where it does not begin with the index before the call, or has no room for the
/// one with the record; amended where the record is finished.
pub fn amend(
    buffer: &mut [u8],
    before: &[u8],
    with_record: &[u8],
    finished: bool,
) -> Result<(), u64> {
    if !buffer.starts_with(before) {
        return Err(NOT_ITS);
    }
    let front = buffer.get_mut(..with_record.len()).ok_or(NO_ROOM)?;
    if finished {
        front.copy_from_slice(with_record);
    }
    Ok(())
}
