//! PostgreSQL hands out the same rows: random sheets as CREATE TABLE and CREATE POLICY, row security
//! forced, a plain role, settings as keys; what each command reaches is what the listing gives.

use fiddlecomet_host::library::{self, exports};
use fiddlecomet_host::making::random::Random;
use fiddlecomet_host::making::sheets;
use fiddlecomet_host::postgres::{server::Server, sql};
use fiddlecomet_host::reading::rows::{row_list, session};
use fiddlecomet_host::reading::sheet::Sheet;
use fiddlecomet_host::reading::{calls, pack, parse::parse};
use std::collections::HashMap;
use std::fmt::Write;

/// One listing that PostgreSQL is asked for as well.
struct Asked {
    tag: String,
    sheet: Vec<u8>,
    table: u32,
    command: u32,
    session: Vec<u8>,
    rows: Vec<Vec<u8>>,
}

const SHEETS: usize = 120;
const SESSIONS: usize = 3;

/// A random sheet that is accepted and has a policy.
fn accepted(random: &mut Random) -> Sheet {
    loop {
        let size = if random.once_in(4) { sheets::ANY } else { sheets::SMALL };
        let sheet = sheets::sheet(random, sheets::Size { tables: 3, ..size });
        if !sheet.policies.is_empty() && parse(&pack::sheet(&sheet)).is_ok() {
            return sheet;
        }
    }
}

/// The script that asks for everything, and what was asked.
fn script(random: &mut Random) -> (String, Vec<Asked>) {
    let mut text = "create role plain;\nset client_min_messages = warning;\n".to_string();
    let mut asked = Vec::new();
    for number in 0..SHEETS {
        let sheet = accepted(random);
        writeln!(text, "create schema s{number};\ngrant usage on schema s{number} to plain;").expect("text");
        for table in (0..sheet.tables.len()).filter(|&table| !sheet.tables[table].columns().is_empty()) {
            let name = format!("s{number}.t{table}");
            let rows: Vec<Vec<u8>> = (0..random.between(4, 24)).map(|_| sheets::row(random, &sheet, table)).collect();
            let bytes = rows.concat();
            let read: Vec<_> =
                row_list(&sheet, table, &bytes).expect("made well").iter().map(|row| row.columns).collect();
            text += &sql::create_table(&sheet, table, &name);
            text += &sql::insert_rows(&sheet, table, &name, &read);
            for _ in 0..SESSIONS {
                let keys = sheets::session(random, &sheet);
                text += &sql::set_keys(&sheet, &session(&sheet, &keys).expect("made well"));
                for command in 0..4 {
                    let tag = asked.len().to_string();
                    text += &sql::under(command, &name, &tag);
                    let sheet = pack::sheet(&sheet);
                    asked.push(Asked {
                        tag,
                        sheet,
                        table: table as u32,
                        command: command as u32,
                        session: keys.clone(),
                        rows: rows.clone(),
                    });
                }
            }
        }
    }
    (text, asked)
}

#[test]
fn the_same_rows_come_out() {
    let server = Server::start().expect("a private server");
    let (text, asked) = script(&mut Random::new(15));
    let printed = server.run(&text).expect("the script runs");
    let mut handed: HashMap<&str, Vec<usize>> = HashMap::new();
    for line in printed.lines() {
        let (tag, id) = line.split_once('|').expect("two fields");
        handed.entry(tag).or_default().push(id.parse().expect("a row's number"));
    }
    let mut reached = [0; 4];
    for one in &asked {
        let ids = handed.get(one.tag.as_str()).map_or(&[][..], Vec::as_slice);
        let rows = one.rows.concat();
        let expected: Vec<u8> = ids.iter().flat_map(|&id| one.rows[id].clone()).collect();
        let mut out = vec![0; rows.len()];
        let listed =
            calls::listing(&one.sheet, one.table, one.command, &one.session, &rows, &mut out).expect("made well");
        let about = || {
            format!(
                "sheet {:02x?} table {} command {} session {:02x?} rows {ids:?}",
                one.sheet, one.table, one.command, one.session
            )
        };
        assert_eq!((listed.rows, &out[..listed.length]), (ids.len(), &expected[..]), "the reading: {}", about());
        reached[one.command as usize] += ids.len();
        if exports("listing") {
            let mut out = vec![0; rows.len()];
            let listed = library::listing(&one.sheet, one.table, one.command, &one.session, &rows, &mut out);
            assert_eq!((listed.refusal, listed.rows as usize), (0, ids.len()), "the library: {}", about());
            assert_eq!(out[..listed.length as usize], expected, "the library: {}", about());
        }
    }
    let library = if exports("listing") { asked.len() } else { 0 };
    println!("PostgreSQL: {SHEETS} sheets, {} listings by the reading, {library} by the library, rows handed out {reached:?}", asked.len());
    assert!(asked.len() > 4 * SHEETS && reached.iter().all(|&rows| rows > 200), "{reached:?}");
}
