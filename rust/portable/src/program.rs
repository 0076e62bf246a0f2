//! The program that a term has. Every constructor is either known here, with its meaning in the toolchain's own definition of the
//! language (MIR), or refused: signed operations, floats, 128 bits, calls other than direct ones, and whatever comes in future.

use crate::term::Node;
use crate::tree::{
    is_left, Arm, Base, Binary, Expr, Function, Local, Place, Program, Shape, Statement, Step, Ty, Unary, Width,
};
use crate::types::{element, settle, Types};
use crate::Refused;
use std::collections::{BTreeMap, BTreeSet};

/// Reads `program FUNCTIONS MAIN`; an archive has no main function of its own.
pub fn program(term: &Node) -> Result<Program, Refused> {
    let ("program", [functions, _main]) = term.applied()? else {
        return Err(Refused::new(format!("no program: {}", term.short())));
    };
    let mut program = Program { functions: Vec::new(), types: BTreeMap::new() };
    let mut names = BTreeSet::new();
    let definitions = functions.items("lcons", "lnil")?;
    for definition in &definitions {
        if let ("fn-def", [name, _, table]) = definition.applied()? {
            let name = name.text()?;
            let table = table.items("lcons", "lnil")?;
            read_table(&table, &mut program.types).map_err(|refused| refused.of(name))?;
        }
    }
    for name in program.types.keys() {
        check_finite(name, &program.types, &mut Vec::new()).map_err(|refused| refused.of(name))?;
    }
    for definition in definitions {
        let (name, item) = match definition.applied()? {
            ("fn-def", [name, item] | [name, item, _]) => (name.text()?, item),
            _ => return Err(unknown("definition", definition)),
        };
        if !names.insert(name) {
            return Err(Refused::new("two functions of one name").of(name));
        }
        program.functions.extend(function(name, item, &program.types).map_err(|refused| refused.of(name))?);
    }
    Ok(program)
}

fn unknown(what: &str, node: &Node) -> Refused {
    Refused::new(format!("unknown {what}: {}", node.short()))
}

/// The declared types of a function. One name has one shape in the whole program.
fn read_table(table: &[&Node], types: &mut BTreeMap<String, Shape>) -> Result<(), Refused> {
    for entry in table {
        let ("pair", [name, made_of]) = entry.applied()? else { return Err(unknown("declaration", entry)) };
        let shape = match made_of.applied()? {
            ("fields", [fields]) => Shape::Fields(tys(fields)?),
            ("variants", [variants]) => Shape::Variants(
                variants.items("ttcons", "ttnil")?.into_iter().map(tys).collect::<Result<_, _>>()?,
            ),
            _ => return Err(unknown("declaration", made_of)),
        };
        let name = name.text()?;
        match types.get(name) {
            Some(known) if *known != shape => {
                return Err(Refused::new(format!("two types of the name {name}")));
            }
            _ => types.insert(name.to_string(), shape),
        };
    }
    Ok(())
}

/// No type has a value of its own inside.
fn check_finite<'a>(
    name: &'a str,
    types: &'a BTreeMap<String, Shape>,
    above: &mut Vec<&'a str>,
) -> Result<(), Refused> {
    if above.contains(&name) {
        return Err(Refused::new("a type that holds a value of itself"));
    }
    above.push(name);
    let fields: Vec<&Ty> = match types.get(name) {
        Some(Shape::Fields(fields)) => fields.iter().collect(),
        Some(Shape::Variants(variants)) => variants.iter().flatten().collect(),
        None => Vec::new(),
    };
    for field in fields {
        if let Ty::Named(inner) = element(field) {
            check_finite(inner, types, above)?;
        }
    }
    above.pop();
    Ok(())
}

fn tys(node: &Node) -> Result<Vec<Ty>, Refused> {
    node.items("tcons", "tnil")?.into_iter().map(ty).collect()
}

fn width(node: &Node) -> Result<Width, Refused> {
    match node.number()? {
        8 => Ok(Width::W8),
        16 => Ok(Width::W16),
        32 => Ok(Width::W32),
        64 => Ok(Width::W64),
        other => Err(Refused::new(format!("an integer of {other} bits"))),
    }
}

fn ty(node: &Node) -> Result<Ty, Refused> {
    match node.applied()? {
        ("tyInt", [bits]) => Ok(Ty::Int(width(bits)?)),
        ("tyBool", []) => Ok(Ty::Bool),
        ("tyPtr", []) => Ok(Ty::Ptr),
        ("tyUnit", []) => Ok(Ty::Unit),
        ("tyRef", [_lifetime, mutability, to]) => {
            Ok(Ty::Ref { mutable: is_mutable(mutability)?, to: Box::new(ty(to)?) })
        }
        ("tyArray", [of, length]) => match length.applied()? {
            ("lenLit", [length]) => Ok(Ty::Array(Box::new(ty(of)?), length.number()?)),
            _ => Err(unknown("length of an array", length)),
        },
        ("tyStruct", [Node::Text(name), fields]) if name == "&[]" => slice(fields),
        ("tyNamed", [head]) => match head.applied()? {
            ("pair", [name, _lifetimes]) => Ok(Ty::Named(name.text()?.to_string())),
            _ => Err(unknown("name of a type", head)),
        },
        _ => Err(unknown("type", node)),
    }
}

fn is_mutable(node: &Node) -> Result<bool, Refused> {
    match node.applied()? {
        ("mut", []) => Ok(true),
        ("imm", []) => Ok(false),
        _ => Err(unknown("mutability", node)),
    }
}

/// A slice is written as a struct of its pointer and its length.
fn slice(fields: &Node) -> Result<Ty, Refused> {
    match &tys(fields)?[..] {
        [Ty::Ref { mutable, to }, Ty::Int(Width::W64)] => Ok(Ty::Slice { mutable: *mutable, of: to.clone() }),
        _ => Err(unknown("slice", fields)),
    }
}

/// A function; none where no run comes to its end, so that none calls it.
fn function(name: &str, item: &Node, types: &BTreeMap<String, Shape>) -> Result<Option<Function>, Refused> {
    let ("fnItem", [_lifetimes, _outlives, params, locals, body]) = item.applied()? else {
        return Err(unknown("function", item));
    };
    let locals: Vec<Local> = locals.items("lcons", "lnil")?.into_iter().map(local).collect::<Result<_, _>>()?;
    let params = params.place()?;
    if locals.len() <= params {
        return Err(Refused::new("fewer locals than parameters"));
    }
    let mut function =
        Function { name: name.to_string(), params, locals, body: Vec::new(), is_expanded: false };
    let types = Types::new(types);
    let mut reader = Reader { body: Vec::new(), around: Vec::new(), blocks: 0, types: &types };
    reader.statement(body)?;
    if reader.body.last() == Some(&Statement::Unreached) {
        return Ok(None);
    }
    function.body = reader.body;
    settle(&mut function, &types)?;
    Ok(Some(function))
}

fn local(node: &Node) -> Result<Local, Refused> {
    let ("local", [of, home]) = node.applied()? else { return Err(unknown("local", node)) };
    let in_memory = match home.applied()? {
        ("valueLocal", []) => false,
        ("memorySlot", []) => true,
        _ => return Err(unknown("home of a local", home)),
    };
    let ty = ty(of)?;
    Ok(Local { is_raw: ty == Ty::Ptr, ty, in_memory })
}

/// What an exit may leave: a loop, of which it is the next turn or the end, or a block that is none.
#[derive(Clone, Copy)]
enum Level {
    Turn,
    End,
    Block(usize),
}

/// Reads statements into a body. A loop is a `block` around a `loop`, so an `exit` counts two for each; a switch is no level of its own.
struct Reader<'a> {
    body: Vec<Statement>,
    /// What is around the statement that is read.
    around: Vec<Level>,
    /// How many blocks there are so far that are no loops.
    blocks: usize,
    types: &'a Types<'a>,
}

impl Reader<'_> {
    fn statement(&mut self, node: &Node) -> Result<(), Refused> {
        let mut rest = node;
        // a sequence is a long list to the right: it is followed, and not descended into
        while let ("seq", [first, second]) = rest.applied()? {
            self.statement(first)?;
            rest = second;
            // no run comes to what stands behind an exit or a return
            if matches!(first.applied()?, ("exit" | "return", _)) {
                return Ok(());
            }
        }
        let made = match rest.applied()? {
            ("skip", []) => return Ok(()),
            ("assign", [target, value]) => Statement::Assign(place(target)?, rvalue(value, self.types)?),
            ("call", [called, arguments, target]) => call(called, arguments, target, self.types)?,
            ("block", [inner]) => return self.block(inner),
            ("if", [test, yes, no]) => {
                let test = operand(test, self.types)?;
                let (yes, no) = (self.nested_body(yes)?, self.nested_body(no)?);
                match (is_unreached(&yes), is_unreached(&no)) {
                    (true, _) => return self.splice(no),
                    (_, true) => return self.splice(yes),
                    _ => Statement::If(test, yes, no),
                }
            }
            ("switch", [on, arms]) => return self.switch(on, arms),
            ("exit", [level]) => self.exit(level.place()?)?,
            ("return", []) => Statement::Return(None),
            ("unreachable", []) => Statement::Unreached,
            _ => return Err(unknown("statement", rest)),
        };
        self.body.push(made);
        Ok(())
    }

    /// The one branch that a run can come to.
    fn splice(&mut self, body: Vec<Statement>) -> Result<(), Refused> {
        self.body.extend(body);
        Ok(())
    }

    fn nested_body(&mut self, node: &Node) -> Result<Vec<Statement>, Refused> {
        let outer = std::mem::take(&mut self.body);
        self.statement(node)?;
        Ok(std::mem::replace(&mut self.body, outer))
    }

    fn nested_within(&mut self, node: &Node, levels: &[Level]) -> Result<Vec<Statement>, Refused> {
        let before = self.around.len();
        self.around.extend(levels);
        let body = self.nested_body(node)?;
        self.around.truncate(before);
        match is_unreached(&body) {
            true => Err(Refused::new("a loop or a block whose end no run comes to")),
            false => Ok(body),
        }
    }

    /// A loop, or a block that is none: its statements stand in its place unless one of them leaves it.
    fn block(&mut self, node: &Node) -> Result<(), Refused> {
        if let ("loop", [inner]) = node.applied()? {
            let body = self.nested_within(inner, &[Level::End, Level::Turn])?;
            self.body.push(Statement::Loop(body));
            return Ok(());
        }
        let number = self.blocks;
        self.blocks += 1;
        let body = self.nested_within(node, &[Level::Block(number)])?;
        if is_left(&body, number) {
            self.body.push(Statement::Block(number, body));
            return Ok(());
        }
        self.splice(body)
    }

    /// Level 0 is the innermost loop's next turn, level 1 its end, where no other block is between; levels above leave more than one loop.
    fn exit(&self, level: usize) -> Result<Statement, Refused> {
        let loops = |levels: &[Level]| levels.iter().filter(|level| matches!(level, Level::Turn)).count();
        let Some(at) = self.around.len().checked_sub(level + 1) else {
            return Err(Refused::new(match loops(&self.around) {
                0 => "an exit outside of a loop".to_string(),
                _ => format!("an exit out of more than one loop: {level}"),
            }));
        };
        match (self.around[at], loops(&self.around[at..])) {
            (Level::Turn, 1) => Ok(Statement::Continue),
            (Level::End, 1) => Ok(Statement::Break),
            (Level::Block(number), 0) => Ok(Statement::Leave(number)),
            _ => Err(Refused::new(format!("an exit out of more than one loop: {level}"))),
        }
    }

    /// An arm that no run comes to the end of is left out: the proofs exclude its numbers. Where one is left, it is no switch.
    fn switch(&mut self, on: &Node, arms: &Node) -> Result<(), Refused> {
        let on = operand(on, self.types)?;
        let mut arms = self.arms(arms)?;
        let all = arms.len();
        arms.retain(|arm| !is_unreached(&arm.body));
        if arms.len() < all {
            match &mut arms[..] {
                [] => self.body.push(Statement::Unreached),
                [_] => return self.splice(arms.remove(0).body),
                [.., Arm { otherwise, .. }] => {
                    *otherwise = true;
                    self.body.push(Statement::Switch(on, arms));
                }
            }
        } else {
            self.body.push(Statement::Switch(on, arms));
        }
        Ok(())
    }

    /// The last arm of a switch without a default is one: the proofs exclude all other numbers, and every path then has a value.
    fn arms(&mut self, node: &Node) -> Result<Vec<Arm>, Refused> {
        let mut arms: Vec<Arm> = Vec::new();
        let mut rest = node;
        loop {
            match rest.applied()? {
                ("arm", [keys, body, more]) => {
                    let keys = keys.items("lcons", "lnil")?.into_iter().map(Node::number);
                    let keys: Vec<u64> = keys.collect::<Result<_, _>>()?;
                    if arms.iter().any(|arm| arm.keys.iter().any(|key| keys.contains(key))) {
                        return Err(Refused::new("a key of two arms"));
                    }
                    arms.push(Arm { keys, otherwise: false, body: self.nested_body(body)? });
                    rest = more;
                }
                ("default", [body]) => {
                    arms.push(Arm { keys: Vec::new(), otherwise: true, body: self.nested_body(body)? });
                    return Ok(arms);
                }
                ("noDefault", []) => {
                    let Some(last) = arms.last_mut() else {
                        return Err(Refused::new("a switch without an arm"));
                    };
                    last.otherwise = true;
                    return Ok(arms);
                }
                _ => return Err(unknown("arm of a switch", rest)),
            }
        }
    }
}

fn is_unreached(body: &[Statement]) -> bool {
    body.last() == Some(&Statement::Unreached)
}

fn call(called: &Node, arguments: &Node, target: &Node, types: &Types) -> Result<Statement, Refused> {
    let ("direct", [function]) = called.applied()? else { return Err(unknown("call", called)) };
    let ("fnRef", [name]) = function.applied()? else { return Err(unknown("call", called)) };
    let arguments = operands(arguments, types)?;
    Ok(Statement::Assign(place(target)?, Expr::Call(name.text()?.to_string(), arguments)))
}

fn place(node: &Node) -> Result<Place, Refused> {
    let ("place", [local, steps]) = node.applied()? else { return Err(unknown("place", node)) };
    let steps = steps.items("lcons", "lnil")?.into_iter().map(step).collect::<Result<_, _>>()?;
    Ok(Place { base: Base::Local(local.place()?), steps })
}

fn step(node: &Node) -> Result<Step, Refused> {
    match node.applied()? {
        ("deref", [to]) => Ok(Step::Deref(ty(to)?)),
        ("field", [number]) => Ok(Step::Field(number.place()?)),
        ("variant", [number]) => Ok(Step::Variant(number.place()?)),
        _ => Err(unknown("step of a place", node)),
    }
}

fn operands(node: &Node, types: &Types) -> Result<Vec<Expr>, Refused> {
    node.items("lcons", "lnil")?.into_iter().map(|node| operand(node, types)).collect()
}

fn operand(node: &Node, types: &Types) -> Result<Expr, Refused> {
    match node.applied()? {
        ("copy", [of]) => Ok(Expr::Copy(place(of)?)),
        ("int", [bits, value]) => {
            let (width, value) = (width(bits)?, value.number()?);
            if width.holds(value) {
                Ok(Expr::Int(width, value))
            } else {
                Err(Refused::new(format!("{value} is no number of {} bits", width.bits())))
            }
        }
        ("true", []) => Ok(Expr::Bool(true)),
        ("false", []) => Ok(Expr::Bool(false)),
        ("unit", []) => Ok(Expr::Unit),
        ("sizeOf", [of]) => Ok(Expr::Int(Width::W64, types.layout(&ty(of)?)?.size)),
        _ => Err(unknown("operand", node)),
    }
}

fn rvalue(node: &Node, types: &Types) -> Result<Expr, Refused> {
    let operand = |node: &Node| operand(node, types);
    match node.applied()? {
        ("rvOpd", [of]) => operand(of),
        ("op2", [operation, left, right]) => {
            Ok(Expr::Binary(binary(operation)?, Box::new(operand(left)?), Box::new(operand(right)?)))
        }
        ("op1", [operation, of]) => Ok(Expr::Unary(unary(operation)?, Box::new(operand(of)?))),
        ("addrOf", [of]) => Ok(Expr::Address(place(of)?)),
        // its type is that of the place it is assigned to, which `settle` puts in
        ("aggregate", [parts]) => Ok(Expr::Aggregate(Ty::Unit, operands(parts, types)?)),
        ("repeat", [of, count]) => Ok(Expr::Repeat(Box::new(operand(of)?), count.number()?)),
        _ => Err(unknown("value", node)),
    }
}

fn is_unsigned(node: &Node) -> Result<bool, Refused> {
    Ok(matches!(node.applied()?, ("unsigned", [])))
}

fn binary(node: &Node) -> Result<Binary, Refused> {
    let signed = |sign: &Node, operation: Binary| match is_unsigned(sign)? {
        true => Ok(operation),
        false => Err(unknown("operation", node)),
    };
    match node.applied()? {
        ("add", [sign]) => signed(sign, Binary::Add),
        ("sub", [sign]) => signed(sign, Binary::Sub),
        ("mul", [sign]) => signed(sign, Binary::Mul),
        ("div", [sign]) => signed(sign, Binary::Div),
        ("rem", [sign]) => signed(sign, Binary::Rem),
        ("shr", [sign]) => signed(sign, Binary::Shr),
        ("lt", [sign]) => signed(sign, Binary::Lt),
        ("le", [sign]) => signed(sign, Binary::Le),
        ("and", []) => Ok(Binary::And),
        ("or", []) => Ok(Binary::Or),
        ("xor", []) => Ok(Binary::Xor),
        ("shl", []) => Ok(Binary::Shl),
        ("eq", []) => Ok(Binary::Eq),
        ("ne", []) => Ok(Binary::Ne),
        ("offset", []) => Ok(Binary::Offset),
        _ => Err(unknown("operation", node)),
    }
}

fn unary(node: &Node) -> Result<Unary, Refused> {
    match node.applied()? {
        ("not", []) => Ok(Unary::Not),
        ("cast", [from, to, bits]) if is_unsigned(from)? && is_unsigned(to)? => Ok(Unary::Cast(width(bits)?)),
        ("leadingZeros", []) => Ok(Unary::LeadingZeros),
        ("trailingZeros", []) => Ok(Unary::TrailingZeros),
        _ => Err(unknown("operation", node)),
    }
}
