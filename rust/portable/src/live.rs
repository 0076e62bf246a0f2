//! Which locals' values are still needed at a place of a body: what decides whether a temporary may be folded away.

use crate::tree::{Effects, Local, Statement};
use std::collections::{BTreeMap, BTreeSet};

pub type Live = BTreeSet<usize>;

/// What is needed where a body is left: at its end, by `break` and `continue`, and at the ends of the blocks around it.
#[derive(Clone, Default)]
pub struct Around {
    pub after: Live,
    pub on_break: Live,
    pub on_continue: Live,
    pub on_leave: BTreeMap<usize, Live>,
}

impl Around {
    fn with_after(&self, after: &Live) -> Around {
        Around { after: after.clone(), ..self.clone() }
    }
}

/// What is needed before each statement of a body, and at its end.
pub fn before_each(body: &[Statement], around: &Around, locals: &[Local]) -> Vec<Live> {
    let mut needed = vec![around.after.clone()];
    for statement in body.iter().rev() {
        let after = needed.last().cloned().unwrap_or_default();
        needed.push(before(statement, &around.with_after(&after), locals));
    }
    needed.reverse();
    needed
}

fn before_body(body: &[Statement], around: &Around, locals: &[Local]) -> Live {
    before_each(body, around, locals).swap_remove(0)
}

fn before(statement: &Statement, around: &Around, locals: &[Local]) -> Live {
    let own = Effects::of_own(statement, locals).reads.into_keys();
    match statement {
        Statement::Continue => around.on_continue.clone(),
        Statement::Break => around.on_break.clone(),
        Statement::Leave(number) => around.on_leave.get(number).cloned().unwrap_or_default(),
        _ => own.chain(behind_own(statement, around, locals)).collect(),
    }
}

/// What is needed once a statement's own expression is evaluated: by its bodies and behind it, or behind what it has assigned.
fn behind_own(statement: &Statement, around: &Around, locals: &[Local]) -> Live {
    match statement {
        Statement::Assign(place, _) => {
            let mut after = around.after.clone();
            if let Some(number) = place.whole() {
                after.remove(&number);
            }
            after
        }
        Statement::If(..) | Statement::Switch(..) => {
            statement.bodies().into_iter().flat_map(|body| before_body(body, around, locals)).collect()
        }
        Statement::Loop(body) | Statement::While(_, body) | Statement::Block(_, body) => {
            before_body(body, &inside(statement, around, locals), locals)
        }
        Statement::Return(_) => Live::new(),
        _ => around.after.clone(),
    }
}

/// What is needed where a statement's bodies are left. A loop's next turn needs what the turn does: the least such set.
pub fn inside(statement: &Statement, around: &Around, locals: &[Local]) -> Around {
    let (test, body) = match statement {
        Statement::Loop(body) => (None, body),
        Statement::While(test, body) => (Some(test), body),
        Statement::Block(number, _) => {
            let mut within = around.clone();
            within.on_leave.insert(*number, around.after.clone());
            return within;
        }
        _ => return around.clone(),
    };
    // a loop without a test ends by its breaks alone
    let mut head = Live::new();
    if let Some(test) = test {
        head.extend(Effects::of_expr(test, locals).reads.into_keys());
        head.extend(&around.after);
    }
    loop {
        let turn = Around {
            after: head.clone(),
            on_break: around.after.clone(),
            on_continue: head.clone(),
            on_leave: around.on_leave.clone(),
        };
        let needed = before_body(body, &turn, locals);
        let grown: Live = head.union(&needed).copied().collect();
        if grown == head {
            return turn;
        }
        head = grown;
    }
}
