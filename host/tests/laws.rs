//! Laws that the reading keeps on random inputs, and a second way to each verdict: trying contents.

use fiddlecomet_host::making::random::Random;
use fiddlecomet_host::making::sheets::{self, sheet, Size, ANY, SMALL};
use fiddlecomet_host::reading::admission::{clause_is_met, look_up};
use fiddlecomet_host::reading::normal::normal_form;
use fiddlecomet_host::reading::parse::parse;
use fiddlecomet_host::reading::rows::session;
use fiddlecomet_host::reading::sheet::{Clause, Content, Kind, Sheet, Test, Variable};
use fiddlecomet_host::reading::solve::{clause_covers, is_live, Conditions, Session};
use fiddlecomet_host::reading::verdicts::{branches, Isolation};
use fiddlecomet_host::reading::{calls, pack};

fn accepted(random: &mut Random, size: Size) -> Sheet {
    loop {
        let made = sheet(random, size);
        if parse(&pack::sheet(&made)).is_ok() {
            return made;
        }
    }
}

#[test]
fn the_format_is_canonical() {
    let mut random = Random::new(3);
    for _ in 0..3_000 {
        let made = accepted(&mut random, ANY);
        assert_eq!(parse(&pack::sheet(&made)), Ok(made));
    }
}

#[test]
fn normalising_twice_gives_the_same_bytes_as_once() {
    let mut random = Random::new(4);
    for _ in 0..3_000 {
        let size = if random.once_in(3) { ANY } else { SMALL };
        let made = accepted(&mut random, size);
        let once = normal_form(&made);
        let bytes = pack::sheet(&once);
        assert!(bytes.len() <= pack::sheet(&made).len());
        assert_eq!(parse(&bytes).as_ref(), Ok(&once));
        assert_eq!(pack::sheet(&normal_form(&once)), bytes, "{made:?}");
    }
}

#[test]
fn the_normal_form_lists_the_same_rows() {
    let mut random = Random::new(5);
    let mut listed = 0;
    for _ in 0..6_000 {
        let made = accepted(&mut random, SMALL);
        let (before, after) = (pack::sheet(&made), pack::sheet(&normal_form(&made)));
        let table = random.below(made.tables.len());
        let session = sheets::session(&mut random, &made);
        let rows = sheets::row_list(&mut random, &made, table, 20);
        for command in 0..4 {
            let list = |sheet: &[u8]| {
                let mut out = vec![0; rows.len()];
                let listed =
                    calls::listing(sheet, table as u32, command, &session, &rows, &mut out).expect("made well");
                (listed, out)
            };
            assert_eq!(list(&before), list(&after), "{made:?}");
            listed += list(&before).0.rows;
        }
    }
    assert!(listed > 10_000, "{listed}");
}

/// The tenants of random sessions that are handed the row under the command.
fn tenants_handed(random: &mut Random, made: &Sheet, table: usize, command: u32, row: &[u8]) -> Vec<Content> {
    let bytes = pack::sheet(made);
    let sessions: Vec<Vec<u8>> = (0..12).map(|_| sheets::session(random, made)).collect();
    let is_handed = |session: &&Vec<u8>| {
        let mut out = vec![0; row.len()];
        calls::listing(&bytes, table as u32, command, session, row, &mut out).expect("made well").rows == 1
    };
    let tenant = |bytes: &Vec<u8>| session(made, bytes).expect("made well")[0];
    let mut tenants: Vec<Content> = sessions.iter().filter(is_handed).map(tenant).collect();
    tenants.sort_unstable();
    tenants.dedup();
    tenants
}

/// A table called isolated never hands one row to two tenants, and some that leak are seen to.
#[test]
fn isolated_tables_hand_no_row_to_two_tenants() {
    let mut random = Random::new(6);
    let (mut isolated, mut seen_to_leak) = (0, 0);
    for _ in 0..6_000 {
        let made = accepted(&mut random, SMALL);
        let table = random.below(made.tables.len());
        let command = random.below(4) as u32;
        let row = sheets::row(&mut random, &made, table);
        let tenants = tenants_handed(&mut random, &made, table, command, &row);
        match calls::isolated(&pack::sheet(&made), table as u32, command).expect("few branches") {
            Isolation::Isolated => {
                assert!(tenants.len() <= 1, "{made:?} {tenants:?}");
                isolated += tenants.len();
            }
            Isolation::Leaks(..) => seen_to_leak += usize::from(tenants.len() > 1),
        }
    }
    assert!(isolated > 50 && seen_to_leak > 500, "{isolated} {seen_to_leak}");
}

/// Every content that could matter for a variable: null, the ends of its kind, each constant of
/// the clauses and its neighbours, and values that nobody names.
fn candidates(kind: Kind, constants: &[i64]) -> Vec<Content> {
    let (least, greatest) = kind.range();
    let near = constants.iter().flat_map(|&value| [Some(value), value.checked_sub(1), value.checked_add(1)]).flatten();
    let fresh = (0..40).map(|n| 1_000_000 + n).filter(|value| !constants.contains(value)).take(2);
    let mut values: Vec<i64> = near.chain([least, greatest]).chain(fresh).filter(|&value| kind.has(value)).collect();
    values.sort_unstable();
    values.dedup();
    std::iter::once(None).chain(values.into_iter().map(Some)).collect()
}

fn constants(clauses: &[&Clause]) -> Vec<i64> {
    let of = |test: &Test| match test {
        Test::In(list) | Test::NotIn(list) => list.clone(),
        Test::AtMost(v) | Test::AtLeast(v) | Test::Below(v) | Test::Above(v) => vec![*v],
        _ => vec![],
    };
    clauses.iter().flat_map(|clause| clause.iter()).flat_map(|atom| of(&atom.test)).collect()
}

/// Tries every way to fill the columns and keys of two sessions; true if `wanted` holds for one.
fn some_world(
    sheet: &Sheet,
    clauses: &[&Clause],
    sessions: usize,
    wanted: impl Fn(&[Content; 16], &[Vec<Content>]) -> bool,
) -> bool {
    let constants = constants(clauses);
    let kinds: Vec<Kind> =
        sheet.columns.iter().copied().chain((0..sessions).flat_map(|_| sheet.keys.iter().copied())).collect();
    let choices: Vec<Vec<Content>> = kinds.iter().map(|&kind| candidates(kind, &constants)).collect();
    let mut at = vec![0; choices.len()];
    loop {
        let world: Vec<Content> = at.iter().zip(&choices).map(|(&n, choice)| choice[n]).collect();
        let mut columns = [None; 16];
        columns[..sheet.columns.len()].copy_from_slice(&world[..sheet.columns.len()]);
        let keys: Vec<Vec<Content>> =
            world[sheet.columns.len()..].chunks(sheet.keys.len()).map(<[Content]>::to_vec).collect();
        if wanted(&columns, &keys) {
            return true;
        }
        let Some(place) = (0..at.len()).find(|&place| at[place] + 1 < choices[place].len()) else { return false };
        at[..place].fill(0);
        at[place] += 1;
    }
}

/// Few variables and few constants, so that all fillings can be tried.
fn tiny(random: &mut Random) -> (Sheet, Clause, Clause) {
    let kinds = [Kind::Integer, Kind::Token, Kind::Boolean];
    let kind = *random.pick(&kinds);
    let made = Sheet { columns: vec![kind], keys: vec![kind; random.between(1, 2)], tables: vec![], policies: vec![] };
    let variables: Vec<Variable> =
        [Variable::Column(0)].into_iter().chain((0..made.keys.len()).map(Variable::Key)).collect();
    let p = sheets::clause(random, &made, &variables, Size { atoms: 3, ..SMALL });
    let q = sheets::clause(random, &made, &variables, SMALL);
    (made, p, q)
}

#[test]
fn verdicts_agree_with_trying_contents() {
    let mut random = Random::new(7);
    let (mut live, mut covered, mut leaking, mut tried) = (0, 0, 0, 0);
    while tried < 800 {
        let (made, p, q) = tiny(&mut random);
        if constants(&[&p, &q]).len() > 6 {
            continue;
        }
        tried += 1;
        let meets =
            |clause: &Clause, columns: &[Content; 16], keys: &[Content]| clause_is_met(clause, look_up(columns, keys));
        let lives = some_world(&made, &[&q], 1, |columns, keys| meets(&q, columns, &keys[0]));
        assert_eq!(is_live(&made, &q), lives, "{made:?} {q:?}");
        let escapes = some_world(&made, &[&p, &q], 1, |columns, keys| {
            meets(&q, columns, &keys[0]) && !meets(&p, columns, &keys[0])
        });
        assert_eq!(clause_covers(&made, &p, &q), !escapes, "{made:?} {p:?} {q:?}");
        let conditions = Conditions::none(&made).with(&p, Session::One).with(&q, Session::Two);
        let leaks = some_world(&made, &[&p, &q], 2, |columns, keys| {
            keys[0][0] != keys[1][0] && meets(&p, columns, &keys[0]) && meets(&q, columns, &keys[1])
        });
        assert_eq!(conditions.allow_two_tenants(), leaks, "{made:?} {p:?} {q:?}");
        live += usize::from(lives);
        covered += usize::from(lives && !escapes);
        leaking += usize::from(leaks);
    }
    assert!(
        live > 100 && covered > 50 && leaking > 100 && live < tried && leaking < tried,
        "{live} {covered} {leaking}"
    );
}

#[test]
fn branches_are_as_many_as_counted() {
    let mut random = Random::new(8);
    for _ in 0..2_000 {
        let made = accepted(&mut random, SMALL);
        for command in 0..4 {
            let counted = calls::branches(&pack::sheet(&made), 0, command as u32).expect("accepted");
            assert_eq!(branches(&made, 0, command).len() as u64, counted);
        }
    }
}
