//! What a sheet says, once read: 01's words as types.

/// What a variable's values are.
#[derive(Clone, Copy, Debug, PartialEq, Eq)]
pub enum Kind {
    Integer,
    Token,
    Boolean,
}

impl Kind {
    /// The least and the greatest value of the kind.
    pub fn range(self) -> (i64, i64) {
        match self {
            Kind::Integer => (i64::MIN, i64::MAX),
            Kind::Token => (0, 4_294_967_295),
            Kind::Boolean => (0, 1),
        }
    }

    pub fn has(self, value: i64) -> bool {
        let (least, greatest) = self.range();
        (least..=greatest).contains(&value)
    }
}

/// A variable's content: null, or a value of its kind.
pub type Content = Option<i64>;

/// "A variable is a column 0..15 or a session key 0..7."
#[derive(Clone, Copy, Debug, PartialEq, Eq, PartialOrd, Ord)]
pub enum Variable {
    Column(usize),
    Key(usize),
}

impl Variable {
    /// The number that stands for it in a sheet: 0..15 column, 16..23 key.
    pub fn number(self) -> usize {
        match self {
            Variable::Column(n) => n,
            Variable::Key(n) => n + 16,
        }
    }
}

/// What an atom asks of its variable.
#[derive(Clone, Debug, PartialEq, Eq)]
pub enum Test {
    Equals(Variable),
    In(Vec<i64>),
    NotIn(Vec<i64>),
    AtMost(i64),
    AtLeast(i64),
    Below(i64),
    Above(i64),
    IsNull,
    IsNotNull,
}

#[derive(Clone, Debug, PartialEq, Eq)]
pub struct Atom {
    pub variable: Variable,
    pub test: Test,
}

/// The atoms of a clause, all of which must be met.
pub type Clause = Vec<Atom>;

/// Which tables a policy is for.
#[derive(Clone, Debug, PartialEq, Eq)]
pub enum Selector {
    All,
    HasColumn(usize),
    InSchema(usize),
    Table(usize),
    Tag(usize),
    And(Box<Selector>, Box<Selector>),
    Or(Box<Selector>, Box<Selector>),
    Not(Box<Selector>),
}

#[derive(Clone, Debug, PartialEq, Eq)]
pub struct Table {
    pub schema: usize,
    pub tags: [bool; 8],
    pub holds: [bool; 16],
}

impl Table {
    /// The columns that the table holds, ascending.
    pub fn columns(&self) -> Vec<usize> {
        (0..16).filter(|&column| self.holds[column]).collect()
    }
}

/// The four commands, by number.
pub const COMMANDS: [&str; 4] = ["SELECT", "INSERT", "UPDATE", "DELETE"];

#[derive(Clone, Debug, PartialEq, Eq)]
pub struct Policy {
    pub restrictive: bool,
    pub commands: [bool; 4],
    pub selector: Selector,
    pub clauses: Vec<Clause>,
}

impl Policy {
    /// The columns that the policy's atoms use, on either side of an equality.
    pub fn used_columns(&self) -> impl Iterator<Item = usize> + '_ {
        let sides = |atom: &Atom| match atom.test {
            Test::Equals(other) => [Some(atom.variable), Some(other)],
            _ => [Some(atom.variable), None],
        };
        self.clauses.iter().flatten().flat_map(sides).flatten().filter_map(|variable| match variable {
            Variable::Column(column) => Some(column),
            Variable::Key(_) => None,
        })
    }
}

#[derive(Clone, Debug, PartialEq, Eq)]
pub struct Sheet {
    pub columns: Vec<Kind>,
    pub keys: Vec<Kind>,
    pub tables: Vec<Table>,
    pub policies: Vec<Policy>,
}

impl Sheet {
    pub fn kind(&self, variable: Variable) -> Kind {
        match variable {
            Variable::Column(n) => self.columns[n],
            Variable::Key(n) => self.keys[n],
        }
    }

    /// The kinds of the columns that a table holds, ascending.
    pub fn row_kinds(&self, table: usize) -> Vec<Kind> {
        self.tables[table].columns().into_iter().map(|column| self.columns[column]).collect()
    }

    /// Does the selector match the table?
    pub fn matches(&self, selector: &Selector, table: usize) -> bool {
        let facts = &self.tables[table];
        match selector {
            Selector::All => true,
            Selector::HasColumn(column) => facts.holds[*column],
            Selector::InSchema(schema) => facts.schema == *schema,
            Selector::Table(number) => table == *number,
            Selector::Tag(tag) => facts.tags[*tag],
            Selector::And(left, right) => self.matches(left, table) && self.matches(right, table),
            Selector::Or(left, right) => self.matches(left, table) || self.matches(right, table),
            Selector::Not(inner) => !self.matches(inner, table),
        }
    }
}
