//! Sessions and row lists: the contents of variables, packed.

use super::bits::BitReader;
use super::sheet::{Content, Kind, Sheet};
use super::{Refusal, ROW_LIST_BYTES};

/// The contents of one session or row, from the start of a byte to the end of one.
fn contents(reader: &mut BitReader, kinds: &[Kind]) -> Option<Vec<Content>> {
    let read = kinds.iter().map(|&kind| content(reader, kind)).collect::<Option<_>>()?;
    reader.finish_byte().then_some(read)
}

fn content(reader: &mut BitReader, kind: Kind) -> Option<Content> {
    if reader.take(1)? == 0 {
        return Some(None);
    }
    let value = reader.take(64)? as i64;
    kind.has(value).then_some(Some(value))
}

/// The session's keys, ascending; 15 where the bytes aren't exactly a session of the sheet.
pub fn session(sheet: &Sheet, bytes: &[u8]) -> Result<Vec<Content>, Refusal> {
    let mut reader = BitReader::new(bytes);
    let keys = contents(&mut reader, &sheet.keys).ok_or(Refusal(15))?;
    if reader.is_at_end() {
        Ok(keys)
    } else {
        Err(Refusal(15))
    }
}

/// A row: its bytes and the contents of the table's columns, by column number; a column that the
/// table doesn't hold reads as null, and no atom that counts asks for it (refusal 11).
pub struct Row<'a> {
    pub bytes: &'a [u8],
    pub columns: [Content; 16],
}

/// The rows of a list, in order; 15 where the bytes aren't a row list of the table.
pub fn row_list<'a>(sheet: &Sheet, table: usize, bytes: &'a [u8]) -> Result<Vec<Row<'a>>, Refusal> {
    if bytes.len() > ROW_LIST_BYTES {
        return Err(Refusal(15));
    }
    let held = sheet.tables[table].columns();
    if held.is_empty() && !bytes.is_empty() {
        return Err(Refusal(15));
    }
    let mut reader = BitReader::new(bytes);
    let mut rows = Vec::new();
    while !reader.is_at_end() {
        let start = reader.byte();
        let mut columns = [None; 16];
        for &column in &held {
            columns[column] = content(&mut reader, sheet.columns[column]).ok_or(Refusal(15))?;
        }
        if !reader.finish_byte() {
            return Err(Refusal(15));
        }
        rows.push(Row { bytes: &bytes[start..reader.byte()], columns });
    }
    Ok(rows)
}
