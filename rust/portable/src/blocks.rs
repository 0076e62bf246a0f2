//! Of the reading form: blocks that are left from within, as branches.

use crate::tree::{is_left, leaves, Arm, Binary, Expr, Statement};

/// The statements of each block that can be without it: what stands behind a branch that leaves the block goes into the one other way.
pub fn left(body: &mut Vec<Statement>) {
    let mut at = 0;
    while at < body.len() {
        body[at].bodies_mut().into_iter().for_each(left);
        if let Statement::Block(number, inner) = &body[at] {
            if let Some(inner) = ended(inner.clone(), &Statement::Leave(*number)) {
                let count = inner.len();
                body.splice(at..=at, inner);
                at += count;
                continue;
            }
        }
        at += 1;
    }
}

/// Statements each of whose ways comes to their end, in the place of those that end by a statement of their own. None where what stands behind a
/// branch would have to stand in two places.
pub fn ended(mut body: Vec<Statement>, end: &Statement) -> Option<Vec<Statement>> {
    let has_end = |statement: &Statement| has(std::slice::from_ref(statement), end);
    let Some(at) = body.iter().position(has_end) else { return Some(body) };
    let rest = body.split_off(at + 1);
    let last = body.pop()?;
    let open = last.bodies().into_iter().filter(|branch| !leaves(branch)).count();
    let within = |mut branch: Vec<Statement>| {
        if !leaves(&branch) {
            branch.extend_from_slice(&rest);
        }
        ended(branch, end)
    };
    let last = match last {
        last if last == *end => return Some(body),
        _ if open > 1 && !rest.is_empty() => return None,
        Statement::If(test, yes, no) => Statement::If(test, within(yes)?, within(no)?),
        Statement::Switch(on, arms) => {
            let arms = arms.into_iter().map(|arm| Some(Arm { body: within(arm.body)?, ..arm }));
            Statement::Switch(on, arms.collect::<Option<_>>()?)
        }
        _ => return None,
    };
    body.push(last);
    Some(body)
}

fn has(body: &[Statement], end: &Statement) -> bool {
    match end {
        Statement::Leave(number) => is_left(body, *number),
        end => body
            .iter()
            .any(|statement| statement == end || statement.bodies().into_iter().any(|inner| has(inner, end))),
    }
}

/// Two tests of which the second leaves a block where neither holds are one.
pub fn conditions(body: &mut Vec<Statement>) {
    for statement in body {
        statement.bodies_mut().into_iter().for_each(conditions);
        let Statement::If(test, yes, no) = &*statement else { continue };
        let ([], [Statement::If(second, other, leaving)]) = (&yes[..], &no[..]) else { continue };
        if other.is_empty() && matches!(leaving[..], [Statement::Leave(_)]) {
            let test = Expr::Binary(Binary::Either, Box::new(test.clone()), Box::new(second.clone()));
            *statement = Statement::If(test, Vec::new(), leaving.clone());
        }
    }
}
