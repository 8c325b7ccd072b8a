//! Reading a packed sheet: each field as it is reached, every refusal from 1 to 11 in its order.

use super::bits::BitReader;
use super::sheet::{Atom, Clause, Kind, Policy, Selector, Sheet, Table, Test, Variable};
use super::{Refusal, DEEPEST_NODE, SHEET_BYTES};

/// The sheet that the bytes pack, or the first refusal that applies.
pub fn parse(bytes: &[u8]) -> Result<Sheet, Refusal> {
    if bytes.len() > SHEET_BYTES {
        return Err(Refusal(1));
    }
    let mut reader = Reader { bits: BitReader::new(bytes), columns: 0, tables: 0, kinds: Kinds::default() };
    let sheet = reader.sheet()?;
    if !(reader.bits.finish_byte() && reader.bits.is_at_end()) {
        return Err(Refusal(10));
    }
    if sheet.policies.iter().any(|policy| lacks_a_column(&sheet, policy)) {
        return Err(Refusal(11));
    }
    Ok(sheet)
}

/// 11: "a selector matches a table without a column that the policy's atoms use".
fn lacks_a_column(sheet: &Sheet, policy: &Policy) -> bool {
    let matched = (0..sheet.tables.len()).filter(|&table| sheet.matches(&policy.selector, table));
    matched.into_iter().any(|table| policy.used_columns().any(|column| !sheet.tables[table].holds[column]))
}

/// The kinds read so far, which later fields are judged by.
#[derive(Default)]
struct Kinds {
    columns: Vec<Kind>,
    keys: Vec<Kind>,
}

struct Reader<'a> {
    bits: BitReader<'a>,
    columns: usize,
    tables: usize,
    kinds: Kinds,
}

fn refuse_if(fault: bool, number: u32) -> Result<(), Refusal> {
    if fault {
        Err(Refusal(number))
    } else {
        Ok(())
    }
}

/// The members of a set of `N` bits, "first bit of a set stands for number 0".
fn members<const N: usize>(set: u64) -> [bool; N] {
    std::array::from_fn(|number| set >> (N - 1 - number) & 1 == 1)
}

impl Reader<'_> {
    /// One field, "2 before the field's own fault".
    fn field(&mut self, width: u32) -> Result<u64, Refusal> {
        self.bits.take(width).ok_or(Refusal(2))
    }

    /// A count or number of things.
    fn number(&mut self, width: u32) -> Result<usize, Refusal> {
        Ok(self.field(width)? as usize)
    }

    fn count(&mut self, width: u32, allowed: std::ops::RangeInclusive<usize>) -> Result<usize, Refusal> {
        let count = self.number(width)?;
        refuse_if(!allowed.contains(&count), 4)?;
        Ok(count)
    }

    fn sheet(&mut self) -> Result<Sheet, Refusal> {
        let edition = self.field(4)?;
        refuse_if(edition != 1, 3)?;
        self.columns = self.count(5, 0..=16)?;
        let keys = self.count(4, 1..=8)?;
        self.tables = self.count(5, 1..=16)?;
        let policies = self.count(5, 0..=16)?;
        for _ in 0..self.columns {
            let kind = self.kind()?;
            self.kinds.columns.push(kind);
        }
        for _ in 0..keys {
            let kind = self.kind()?;
            self.kinds.keys.push(kind);
        }
        let tables = (0..self.tables).map(|_| self.table()).collect::<Result<_, _>>()?;
        let policies = (0..policies).map(|_| self.policy()).collect::<Result<_, _>>()?;
        let Kinds { columns, keys } = std::mem::take(&mut self.kinds);
        Ok(Sheet { columns, keys, tables, policies })
    }

    fn kind(&mut self) -> Result<Kind, Refusal> {
        match self.field(2)? {
            0 => Ok(Kind::Integer),
            1 => Ok(Kind::Token),
            2 => Ok(Kind::Boolean),
            _ => Err(Refusal(5)),
        }
    }

    fn table(&mut self) -> Result<Table, Refusal> {
        let schema = self.number(6)?;
        let tags = members(self.field(8)?);
        let holds: [bool; 16] = members(self.field(16)?);
        refuse_if(holds[self.columns..].contains(&true), 6)?;
        Ok(Table { schema, tags, holds })
    }

    fn policy(&mut self) -> Result<Policy, Refusal> {
        let restrictive = self.field(1)? == 1;
        let commands = members(self.field(4)?);
        refuse_if(commands == [false; 4], 8)?;
        let selector = self.selector(1)?;
        let clauses = self.count(4, 0..=8)?;
        let clauses = (0..clauses).map(|_| self.clause()).collect::<Result<_, _>>()?;
        Ok(Policy { restrictive, commands, selector, clauses })
    }

    /// A selector whose first node stands at `depth`, a lone leaf standing at one.
    fn selector(&mut self, depth: u32) -> Result<Selector, Refusal> {
        refuse_if(depth > DEEPEST_NODE, 9)?;
        Ok(match self.field(3)? {
            0 => Selector::All,
            1 => Selector::HasColumn(self.below(4, self.columns)?),
            2 => Selector::InSchema(self.number(6)?),
            3 => Selector::Table(self.below(4, self.tables)?),
            4 => Selector::Tag(self.number(3)?),
            5 => Selector::And(self.inner(depth)?, self.inner(depth)?),
            6 => Selector::Or(self.inner(depth)?, self.inner(depth)?),
            _ => Selector::Not(self.inner(depth)?),
        })
    }

    fn inner(&mut self, depth: u32) -> Result<Box<Selector>, Refusal> {
        Ok(Box::new(self.selector(depth + 1)?))
    }

    /// A number that must be below its count.
    fn below(&mut self, width: u32, count: usize) -> Result<usize, Refusal> {
        let number = self.number(width)?;
        refuse_if(number >= count, 6)?;
        Ok(number)
    }

    fn clause(&mut self) -> Result<Clause, Refusal> {
        let atoms = self.count(4, 0..=8)?;
        (0..atoms).map(|_| self.atom()).collect()
    }

    fn atom(&mut self) -> Result<Atom, Refusal> {
        let variable = self.variable()?;
        let kind = self.kind_of(variable);
        let operator = self.field(4)?;
        refuse_if(operator > 8, 5)?;
        refuse_if((3..=6).contains(&operator) && kind != Kind::Integer, 7)?;
        let test = match operator {
            0 => {
                let other = self.variable()?;
                refuse_if(self.kind_of(other) != kind, 7)?;
                Test::Equals(other)
            }
            1 => Test::In(self.list(kind)?),
            2 => Test::NotIn(self.list(kind)?),
            3 => Test::AtMost(self.value(kind)?),
            4 => Test::AtLeast(self.value(kind)?),
            5 => Test::Below(self.value(kind)?),
            6 => Test::Above(self.value(kind)?),
            7 => Test::IsNull,
            _ => Test::IsNotNull,
        };
        Ok(Atom { variable, test })
    }

    fn variable(&mut self) -> Result<Variable, Refusal> {
        let number = self.number(5)?;
        refuse_if(number > 23, 5)?;
        let (variable, count) = match number {
            0..=15 => (Variable::Column(number), self.columns),
            _ => (Variable::Key(number - 16), self.kinds.keys.len() + 16),
        };
        refuse_if(number >= count, 6)?;
        Ok(variable)
    }

    fn kind_of(&self, variable: Variable) -> Kind {
        match variable {
            Variable::Column(n) => self.kinds.columns[n],
            Variable::Key(n) => self.kinds.keys[n],
        }
    }

    fn list(&mut self, kind: Kind) -> Result<Vec<i64>, Refusal> {
        let values = self.count(4, 1..=8)?;
        (0..values).map(|_| self.value(kind)).collect()
    }

    fn value(&mut self, kind: Kind) -> Result<i64, Refusal> {
        let value = self.field(64)? as i64;
        refuse_if(!kind.has(value), 7)?;
        Ok(value)
    }
}
