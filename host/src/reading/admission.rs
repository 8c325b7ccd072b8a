//! Which policies count for a table and command, and which rows they admit.

use super::sheet::{Atom, Clause, Content, Policy, Sheet, Test, Variable};

/// "For a table and command, take the policies whose selector matches the table and whose commands
/// include it." Permissive ones first, then restrictive ones, each in sheet order.
pub fn policies_that_count(sheet: &Sheet, table: usize, command: usize) -> (Vec<&Policy>, Vec<&Policy>) {
    let counts = |policy: &&Policy| policy.commands[command] && sheet.matches(&policy.selector, table);
    sheet.policies.iter().filter(counts).partition(|policy| !policy.restrictive)
}

/// "An atom is met only when it is true; SQL's unknown is not met."
pub fn is_met(atom: &Atom, content: impl Fn(Variable) -> Content) -> bool {
    let held = content(atom.variable);
    match &atom.test {
        Test::Equals(other) => held.is_some() && held == content(*other),
        Test::In(list) => held.is_some_and(|value| list.contains(&value)),
        Test::NotIn(list) => held.is_some_and(|value| !list.contains(&value)),
        Test::AtMost(bound) => held.is_some_and(|value| value <= *bound),
        Test::AtLeast(bound) => held.is_some_and(|value| value >= *bound),
        Test::Below(bound) => held.is_some_and(|value| value < *bound),
        Test::Above(bound) => held.is_some_and(|value| value > *bound),
        Test::IsNull => held.is_none(),
        Test::IsNotNull => held.is_some(),
    }
}

/// "A clause is met when all its atoms are; one without atoms is always met."
pub fn clause_is_met(clause: &Clause, content: impl Fn(Variable) -> Content) -> bool {
    clause.iter().all(|atom| is_met(atom, &content))
}

/// "A policy is met when one of its clauses is; one without clauses never is."
pub fn policy_is_met(policy: &Policy, content: impl Fn(Variable) -> Content) -> bool {
    policy.clauses.iter().any(|clause| clause_is_met(clause, &content))
}

/// "A row is admitted when a permissive policy is met and every restrictive one is met."
pub fn is_admitted(permissive: &[&Policy], restrictive: &[&Policy], content: impl Fn(Variable) -> Content) -> bool {
    permissive.iter().any(|policy| policy_is_met(policy, &content))
        && restrictive.iter().all(|policy| policy_is_met(policy, &content))
}

/// The content of a variable in a row and a session.
pub fn look_up<'a>(columns: &'a [Content; 16], keys: &'a [Content]) -> impl Fn(Variable) -> Content + 'a {
    |variable| match variable {
        Variable::Column(n) => columns[n],
        Variable::Key(n) => keys[n],
    }
}
