//! The program as a tree. The term's own statements are those whose operands are places and constants; the reading form has
//! expressions within expressions, `while` and values that are returned. Both are written by the same `write`.

use std::collections::{BTreeMap, BTreeSet};

#[derive(Clone, Copy, Debug, PartialEq, Eq, PartialOrd, Ord)]
pub enum Width {
    W8,
    W16,
    W32,
    W64,
}

impl Width {
    pub fn bits(self) -> u64 {
        match self {
            Width::W8 => 8,
            Width::W16 => 16,
            Width::W32 => 32,
            Width::W64 => 64,
        }
    }

    pub fn holds(self, value: u64) -> bool {
        self == Width::W64 || value < 1 << self.bits()
    }
}

#[derive(Clone, Debug, PartialEq, Eq, PartialOrd, Ord)]
pub enum Ty {
    Int(Width),
    Bool,
    /// A raw pointer, which says nothing of what it points to; `types::settle` leaves none.
    Ptr,
    Ref {
        mutable: bool,
        to: Box<Ty>,
    },
    Array(Box<Ty>, u64),
    Unit,
    Slice {
        mutable: bool,
        of: Box<Ty>,
    },
    Named(String),
}

/// What a declared type is made of.
#[derive(Clone, Debug, PartialEq, Eq)]
pub enum Shape {
    Fields(Vec<Ty>),
    Variants(Vec<Vec<Ty>>),
}

#[derive(Clone, Debug, PartialEq, Eq)]
pub enum Step {
    Deref(Ty),
    Field(usize),
    Variant(usize),
}

/// Where a place begins: at a local, or, in the reading form, at a value that had a local of its own.
#[derive(Clone, Debug, PartialEq, Eq)]
pub enum Base {
    Local(usize),
    Value(Box<Expr>),
}

#[derive(Clone, Debug, PartialEq, Eq)]
pub struct Place {
    pub base: Base,
    pub steps: Vec<Step>,
}

impl Place {
    pub fn local(number: usize) -> Place {
        Place { base: Base::Local(number), steps: Vec::new() }
    }

    /// The local that the place is, whole.
    pub fn whole(&self) -> Option<usize> {
        match (&self.base, self.steps.is_empty()) {
            (Base::Local(number), true) => Some(*number),
            _ => None,
        }
    }

    pub fn is_behind_pointer(&self) -> bool {
        self.steps.iter().any(|step| matches!(step, Step::Deref(_)))
    }
}

#[derive(Clone, Copy, Debug, PartialEq, Eq)]
pub enum Binary {
    Add,
    Sub,
    Mul,
    Div,
    Rem,
    And,
    Or,
    Xor,
    Shl,
    Shr,
    Eq,
    Ne,
    Lt,
    Le,
    /// Of the reading form alone, from a negation.
    Gt,
    Ge,
    /// Of the reading form alone, from a branch: the second is asked for where the first does not tell.
    Both,
    Either,
    /// A pointer, and a count of bytes: followed at once, so within its array.
    Offset,
    /// The same where a slice begins there, which may be at the array's end, or at 0 of none.
    Cut,
}

impl Binary {
    pub fn is_comparison(self) -> bool {
        matches!(self, Binary::Eq | Binary::Ne | Binary::Lt | Binary::Le | Binary::Gt | Binary::Ge)
    }

    /// Whether C asks for the second operand only where the first does not tell.
    pub fn is_circuit(self) -> bool {
        matches!(self, Binary::Both | Binary::Either)
    }
}

#[derive(Clone, Copy, Debug, PartialEq, Eq)]
pub enum Unary {
    Not,
    Cast(Width),
    LeadingZeros,
    TrailingZeros,
}

#[derive(Clone, Debug, PartialEq, Eq)]
pub enum Expr {
    Copy(Place),
    Int(Width, u64),
    Bool(bool),
    Unit,
    Binary(Binary, Box<Expr>, Box<Expr>),
    Unary(Unary, Box<Expr>),
    Address(Place),
    /// A struct of these fields, an array of these elements, a slice of pointer and length, or an enum of its tag and these fields.
    Aggregate(Ty, Vec<Expr>),
    Repeat(Box<Expr>, u64),
    Call(String, Vec<Expr>),
}

/// What a struct, or a variant, made of some parts has at some steps: the part of the first steps, and the steps that are left.
pub fn part<'a>(parts: &'a [Expr], steps: &'a [Step]) -> Option<(&'a Expr, &'a [Step])> {
    match (steps, parts.first()) {
        ([Step::Field(number), rest @ ..], _) => Some((parts.get(*number)?, rest)),
        ([Step::Variant(variant), Step::Field(number), rest @ ..], Some(Expr::Int(_, tag)))
            if *variant as u64 == *tag || *number == 0 =>
        {
            Some((parts.get(*number)?, rest))
        }
        _ => None,
    }
}

impl Expr {
    pub fn local(number: usize) -> Expr {
        Expr::Copy(Place::local(number))
    }

    pub fn is_literal(&self) -> bool {
        matches!(self, Expr::Int(..) | Expr::Bool(_))
    }
}

#[derive(Clone, Debug, PartialEq, Eq)]
pub struct Arm {
    pub keys: Vec<u64>,
    /// Whether it also runs where no key fits: a default has no keys, and the last arm of a switch without one has this too.
    pub otherwise: bool,
    pub body: Vec<Statement>,
}

#[derive(Clone, Debug, PartialEq, Eq)]
pub enum Statement {
    Assign(Place, Expr),
    If(Expr, Vec<Statement>, Vec<Statement>),
    Loop(Vec<Statement>),
    /// Of the reading form alone: a loop that begins with its test.
    While(Expr, Vec<Statement>),
    Switch(Expr, Vec<Arm>),
    /// What may be left from within, by its number.
    Block(usize, Vec<Statement>),
    Leave(usize),
    /// Where a local comes into being; the term's are there from the start.
    Declare(usize),
    Continue,
    Break,
    /// Of what local 0 holds; in the reading form, of an expression.
    Return(Option<Expr>),
    /// Where no run comes to, by the proofs. Only while a body is read: a branch that ends here is left out.
    Unreached,
}

#[derive(Clone, Debug)]
pub struct Local {
    pub ty: Ty,
    /// Whether it has an address.
    pub in_memory: bool,
    /// Whether it is a raw pointer, whatever it points to.
    pub is_raw: bool,
}

#[derive(Clone, Debug)]
pub struct Function {
    pub name: String,
    pub params: usize,
    pub locals: Vec<Local>,
    pub body: Vec<Statement>,
    /// Whether a call was written out here, in the reading form.
    pub is_expanded: bool,
}

#[derive(Clone, Debug)]
pub struct Program {
    pub functions: Vec<Function>,
    pub types: BTreeMap<String, Shape>,
}

impl Program {
    pub fn function(&self, name: &str) -> Option<&Function> {
        self.functions.iter().find(|function| function.name == name)
    }
}

impl Statement {
    /// The expressions and places that the statement itself has, its bodies aside; a place that is only written to comes apart.
    pub fn own(&self) -> (Option<&Place>, Option<&Expr>) {
        match self {
            Statement::Assign(place, value) => (Some(place), Some(value)),
            Statement::If(test, ..) | Statement::While(test, _) | Statement::Switch(test, _) => {
                (None, Some(test))
            }
            Statement::Return(value) => (None, value.as_ref()),
            Statement::Loop(_)
            | Statement::Block(..)
            | Statement::Leave(_)
            | Statement::Declare(_)
            | Statement::Continue
            | Statement::Break
            | Statement::Unreached => (None, None),
        }
    }

    /// The place and the value of an assignment.
    pub fn assigned(&self) -> Option<(&Place, &Expr)> {
        match self {
            Statement::Assign(place, value) => Some((place, value)),
            _ => None,
        }
    }

    pub fn bodies(&self) -> Vec<&Vec<Statement>> {
        match self {
            Statement::If(_, yes, no) => vec![yes, no],
            Statement::Loop(body) | Statement::While(_, body) | Statement::Block(_, body) => vec![body],
            Statement::Switch(_, arms) => arms.iter().map(|arm| &arm.body).collect(),
            _ => Vec::new(),
        }
    }

    pub fn bodies_mut(&mut self) -> Vec<&mut Vec<Statement>> {
        match self {
            Statement::If(_, yes, no) => vec![yes, no],
            Statement::Loop(body) | Statement::While(_, body) | Statement::Block(_, body) => vec![body],
            Statement::Switch(_, arms) => arms.iter_mut().map(|arm| &mut arm.body).collect(),
            _ => Vec::new(),
        }
    }

    /// Whether what follows it is not reached.
    pub fn leaves(&self) -> bool {
        match self {
            Statement::Continue
            | Statement::Break
            | Statement::Leave(_)
            | Statement::Return(_)
            | Statement::Unreached => true,
            Statement::Block(number, body) => leaves(body) && !is_left(body, *number),
            Statement::If(_, yes, no) => leaves(yes) && leaves(no),
            Statement::Switch(_, arms) => arms.iter().all(|arm| leaves(&arm.body)),
            _ => false,
        }
    }
}

/// Whether what follows the statements is not reached.
pub fn leaves(body: &[Statement]) -> bool {
    body.last().is_some_and(Statement::leaves)
}

/// Whether statements leave a block around them.
pub fn is_left(body: &[Statement], number: usize) -> bool {
    body.iter().any(|statement| match statement {
        Statement::Leave(left) => *left == number,
        other => other.bodies().into_iter().any(|inner| is_left(inner, number)),
    })
}

/// What an expression, a statement or a body does, for the rules that move or place things.
#[derive(Default)]
pub struct Effects {
    /// How often each local is mentioned, written or read.
    pub mentions: BTreeMap<usize, usize>,
    /// The locals that are written, whole or in a part.
    pub writes: BTreeSet<usize>,
    /// How often each local is read.
    pub reads: BTreeMap<usize, usize>,
    pub calls: usize,
    /// Whether a part is not evaluated on each way.
    pub is_circuit: bool,
    /// The types of which values are made.
    pub made: BTreeSet<Ty>,
    /// Reads of what a pointer points to or of a local in memory.
    pub reads_memory: bool,
    pub writes_memory: bool,
}

impl Effects {
    pub fn of_body(body: &[Statement], locals: &[Local]) -> Effects {
        let mut effects = Effects::default();
        body.iter().for_each(|statement| effects.add(statement, locals));
        effects
    }

    pub fn of(statement: &Statement, locals: &[Local]) -> Effects {
        let mut effects = Effects::default();
        effects.add(statement, locals);
        effects
    }

    /// Of a statement without its bodies.
    pub fn of_own(statement: &Statement, locals: &[Local]) -> Effects {
        let mut effects = Effects::default();
        effects.add_own(statement, locals);
        effects
    }

    pub fn of_expr(value: &Expr, locals: &[Local]) -> Effects {
        let mut effects = Effects::default();
        effects.add_expr(value, locals);
        effects
    }

    pub fn count(&self, local: usize) -> usize {
        self.mentions.get(&local).copied().unwrap_or(0)
    }

    fn add(&mut self, statement: &Statement, locals: &[Local]) {
        self.add_own(statement, locals);
        for body in statement.bodies() {
            body.iter().for_each(|inner| self.add(inner, locals));
        }
    }

    fn add_own(&mut self, statement: &Statement, locals: &[Local]) {
        let (target, value) = statement.own();
        if let Some(value) = value {
            self.add_expr(value, locals);
        }
        if let Some(place) = target {
            self.add_target(place, locals);
        }
        if matches!(statement, Statement::Return(None)) {
            self.mention(0);
            self.read(0);
        }
    }

    fn add_target(&mut self, place: &Place, locals: &[Local]) {
        match &place.base {
            Base::Local(number) => {
                self.mention(*number);
                if place.is_behind_pointer() {
                    self.read(*number);
                    self.writes_memory = true;
                } else {
                    self.writes.insert(*number);
                    self.writes_memory |= locals[*number].in_memory;
                }
            }
            Base::Value(value) => {
                self.add_expr(value, locals);
                self.writes_memory = true;
            }
        }
    }

    fn add_expr(&mut self, value: &Expr, locals: &[Local]) {
        match value {
            Expr::Copy(place) => self.add_place(place, locals, true),
            Expr::Address(place) => self.add_place(place, locals, false),
            Expr::Binary(operation, left, right) => {
                self.is_circuit |= operation.is_circuit();
                self.add_expr(left, locals);
                self.add_expr(right, locals);
            }
            Expr::Unary(_, inner) | Expr::Repeat(inner, _) => self.add_expr(inner, locals),
            Expr::Aggregate(ty, parts) => {
                self.made.insert(ty.clone());
                parts.iter().for_each(|part| self.add_expr(part, locals));
            }
            Expr::Call(_, arguments) => {
                self.calls += 1;
                arguments.iter().for_each(|argument| self.add_expr(argument, locals));
            }
            Expr::Int(..) | Expr::Bool(_) | Expr::Unit => {}
        }
    }

    fn add_place(&mut self, place: &Place, locals: &[Local], is_read: bool) {
        match &place.base {
            Base::Local(number) => {
                self.mention(*number);
                self.read(*number);
                self.reads_memory |= is_read && (place.is_behind_pointer() || locals[*number].in_memory);
            }
            Base::Value(value) => {
                self.add_expr(value, locals);
                self.reads_memory |= is_read && place.is_behind_pointer();
            }
        }
    }

    fn read(&mut self, local: usize) {
        *self.reads.entry(local).or_insert(0) += 1;
    }

    fn mention(&mut self, local: usize) {
        *self.mentions.entry(local).or_insert(0) += 1;
    }
}
