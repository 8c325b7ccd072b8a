//! The read-out's text.

use super::calls;
use super::verdicts::Isolation;
use super::{parse::parse, Refusal};
use std::fmt::Write;

const LETTERS: [char; 4] = ['S', 'I', 'U', 'D'];

/// What the read-out program prints for the bytes on its standard input.
pub fn readout(bytes: &[u8]) -> String {
    match lines(bytes) {
        Ok(text) => text,
        Err(Refusal(number)) => format!("refused {number}\n"),
    }
}

fn lines(bytes: &[u8]) -> Result<String, Refusal> {
    let sheet = parse(bytes)?;
    let mut text = format!("tables {} policies {}\n", sheet.tables.len(), sheet.policies.len());
    for table in 0..sheet.tables.len() as u32 {
        for command in 0..4 {
            let verdict = line(bytes, table, command).unwrap_or_else(|Refusal(number)| format!("refused {number}"));
            writeln!(text, "{table} {} {verdict}", LETTERS[command as usize]).expect("a string takes all text");
        }
    }
    Ok(text)
}

fn line(bytes: &[u8], table: u32, command: u32) -> Result<String, Refusal> {
    let count = calls::branches(bytes, table, command)?;
    let life = if calls::dead(bytes, table, command)? { "dead" } else { "live" };
    Ok(match calls::isolated(bytes, table, command)? {
        Isolation::Isolated => format!("{count} {life} isolated"),
        Isolation::Leaks(a, b) => format!("{count} {life} leaks {a} {b}"),
    })
}

#[cfg(test)]
mod tests {
    use super::*;

    #[test]
    fn the_example_of_document_01() {
        let sheet = [0x10, 0x88, 0x42, 0xA0, 0x00, 0x40, 0x00, 0x20, 0x08, 0x80, 0x20];
        let printed =
            "tables 1 policies 1\n0 S 1 live isolated\n0 I 0 dead isolated\n0 U 0 dead isolated\n0 D 0 dead isolated\n";
        assert_eq!(readout(&sheet), printed);
    }

    #[test]
    fn a_refused_sheet_prints_one_line() {
        assert_eq!(readout(&[]), "refused 2\n");
        assert_eq!(readout(&vec![0; 16_385]), "refused 1\n");
        assert_eq!(readout(&[0x20]), "refused 3\n");
    }
}
