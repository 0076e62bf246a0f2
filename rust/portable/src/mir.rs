//! The program as the toolchain keeps it with each library that it has proved, `toolchain/mir.json` of the library's folder: of all libraries
//! together the functions that the calls for C reach, as the term that `program` reads. A construct that has no word there is refused here.
//!
//! A body is a list in which each statement stands before those that it is made of: `Seq` before two, `Block` and `Loop` before one, `If` before
//! two, and `Switch` before one for each of its lists of keys and, where it has one, its default.
//!
//! `LendStatic` lends a constant that is never written. In the term it is a local of the function's own, of which the address is taken; so the
//! function may keep no pointer anywhere. Of an array of numbers nothing but its address may be taken where it was lent.

use crate::instances::instances;
use crate::json::{self, Json};
use crate::sources::Sources;
use crate::term::Node;
use crate::Refused;

/// The term of the functions that the calls for C reach, in the order of the texts and of each text.
pub fn term(texts: &[String], sources: &Sources) -> Result<Node, Refused> {
    let mut all = Vec::new();
    for text in texts {
        let Json::List(functions) = json::read(text)? else { return Err(Refused::new("no list of functions")) };
        for function in functions {
            match function {
                Json::List(pair) => match <[Json; 2]>::try_from(pair) {
                    Ok([Json::Text(name), item]) => all.push((name, item)),
                    _ => return Err(Refused::new("a function without its name")),
                },
                other => return Err(unknown("function", &other)),
            }
        }
    }
    let mut roots: Vec<&str> = all.iter().map(|(name, _)| name.as_str()).collect();
    roots.retain(|name| sources.is_exported(name));
    let mut made = Vec::new();
    for (name, item) in instances(&all, &roots)? {
        made.push(definition(&name, &item).map_err(|refused| refused.of(&name))?);
    }
    Ok(list("program", [cons(made, "lcons", "lnil"), list("fnRef", [Node::Text("main".to_string())])]))
}

fn unknown(what: &str, of: &Json) -> Refused {
    Refused::new(format!("unknown {what}: {}", of.short()))
}

fn word(word: &str) -> Node {
    Node::Word(word.to_string())
}

fn list(front: &str, rest: impl IntoIterator<Item = Node>) -> Node {
    Node::List([word(front)].into_iter().chain(rest).collect())
}

fn cons(items: Vec<Node>, cons: &str, nil: &str) -> Node {
    items.into_iter().rev().fold(word(nil), |rest, item| list(cons, [item, rest]))
}

/// Each of a list, by a reader of one.
fn each(of: &Json, what: &str, one: impl Fn(&Json) -> Result<Node, Refused>) -> Result<Vec<Node>, Refused> {
    of.list().ok_or_else(|| unknown(what, of))?.iter().map(one).collect()
}

fn number(of: &Json) -> Result<Node, Refused> {
    of.number().map(word).ok_or_else(|| unknown("number", of))
}

fn definition(name: &str, item: &Json) -> Result<Node, Refused> {
    let part = |key: &str| item.of(key).ok_or_else(|| Refused::new(format!("a function without its {key}")));
    if !part("generics")?.of("types").is_some_and(Json::is_empty_list) {
        return Err(Refused::new("a function for several types"));
    }
    let mut locals = each(part("locals")?, "locals", local)?;
    let rest = part("body")?.list().ok_or_else(|| Refused::new("a body that is no list"))?;
    let types = part("types")?.list().ok_or_else(|| unknown("types", item))?;
    let mut body =
        Body { rest, types, first_own: locals.len(), own: Vec::new(), lent: Vec::new(), lends: false };
    let statement = body.statement()?;
    if let Some(more) = body.rest.first() {
        return Err(Refused::new(format!("a statement behind the end: {}", more.short())));
    }
    check_lent(&body.lent, part("locals")?, part("body")?)?;
    if body.lends {
        check_kept(part("locals")?, part("params")?, types)?;
    }
    locals.extend(body.own);
    let fn_item = list(
        "fnItem",
        [word("0"), word("lnil"), number(part("params")?)?, cons(locals, "lcons", "lnil"), statement],
    );
    Ok(list("fn-def", [Node::Text(name.to_string()), fn_item, cons(table(part("types")?)?, "lcons", "lnil")]))
}

/// The types that a function declares. One for several types is left out: where it is used, it is refused.
fn table(types: &Json) -> Result<Vec<Node>, Refused> {
    let mut made = Vec::new();
    for declared in types.list().ok_or_else(|| unknown("types", types))? {
        let part = |key: &str| declared.of(key).ok_or_else(|| unknown("declaration", declared));
        let is_plain = part("type_params")?.number() == Some("0") && part("const_params")?.is_empty_list();
        if !is_plain {
            continue;
        }
        if *part("is_cell")? != Json::Bool(false) {
            return Err(unknown("declaration", declared));
        }
        let shape = match part("shape")?.variant() {
            Some(("Fields", fields)) => list("fields", [tys(fields)?]),
            Some(("Variants", variants)) => {
                list("variants", [cons(each(variants, "variants", tys)?, "ttcons", "ttnil")])
            }
            _ => return Err(unknown("declaration", declared)),
        };
        let name = part("name")?.text().ok_or_else(|| unknown("declaration", declared))?;
        made.push(list("pair", [Node::Text(name.to_string()), shape]));
    }
    Ok(made)
}

fn tys(of: &Json) -> Result<Node, Refused> {
    Ok(cons(each(of, "types", ty)?, "tcons", "tnil"))
}

fn ty(of: &Json) -> Result<Node, Refused> {
    let (kind, inner) = of.variant().ok_or_else(|| unknown("type", of))?;
    match (kind, inner.list()) {
        ("Bool", _) => Ok(word("tyBool")),
        ("Ptr", _) => Ok(word("tyPtr")),
        ("Unit", _) => Ok(word("tyUnit")),
        ("Int", _) => Ok(list("tyInt", [number(inner)?])),
        ("Ref", Some([_lifetime, mutability, to])) => {
            let mutability = match mutability.text() {
                Some("Mut") => "mut",
                Some("Imm") => "imm",
                _ => return Err(unknown("mutability", mutability)),
            };
            Ok(list("tyRef", [word("erased"), word(mutability), ty(to)?]))
        }
        ("Array", Some([of, length])) => Ok(list("tyArray", [ty(of)?, list("lenLit", [literal(length)?])])),
        ("Struct", Some([Json::Text(name), fields])) => {
            Ok(list("tyStruct", [Node::Text(name.clone()), tys(fields)?]))
        }
        ("Named", Some([head, arguments])) if arguments.is_empty_list() => {
            let name = head.of("name").and_then(Json::text).ok_or_else(|| unknown("name of a type", head))?;
            Ok(list("tyNamed", [list("pair", [Node::Text(name.to_string()), word("lnil")])]))
        }
        _ => Err(unknown("type", of)),
    }
}

/// A length, or a count, that is a number.
fn literal(of: &Json) -> Result<Node, Refused> {
    match of.variant() {
        Some(("Lit", count)) => number(count),
        _ => Err(unknown("length", of)),
    }
}

fn local(of: &Json) -> Result<Node, Refused> {
    let home = match of.of("home").and_then(Json::text) {
        Some("ValueLocal") => "valueLocal",
        Some("MemorySlot") => "memorySlot",
        _ => return Err(unknown("local", of)),
    };
    Ok(list("local", [ty(of.of("ty").ok_or_else(|| unknown("local", of))?)?, word(home)]))
}

/// An array of numbers that was lent: the digits of the local that points to it, its type, and its local.
struct Lent {
    pointer: String,
    of: Node,
    array: usize,
}

/// What is left of a body, and what it lent so far, each with a local of its own behind the function's.
struct Body<'a> {
    rest: &'a [Json],
    /// What the function declares.
    types: &'a [Json],
    first_own: usize,
    own: Vec<Node>,
    lent: Vec<Lent>,
    /// Whether a constant that is no array of numbers was lent.
    lends: bool,
}

/// A constant that was lent is the function's own, and gone behind it: neither its result nor what it may write to holds a pointer.
fn check_kept(locals: &Json, params: &Json, types: &[Json]) -> Result<(), Refused> {
    let types_of = |local: &Json| local.of("ty").cloned().unwrap_or(Json::Null);
    let all: Vec<Json> = locals.list().unwrap_or_default().iter().map(types_of).collect();
    let count = params.number().and_then(|count| count.parse::<usize>().ok()).unwrap_or(usize::MAX);
    let [result, rest @ ..] = &all[..] else { return Err(unknown("locals", locals)) };
    let keeps = holds_pointer(result, types, &mut Vec::new())
        || rest.iter().take(count).any(|of| may_keep(of, types, &mut Vec::new()));
    match keeps {
        true => Err(Refused::new("a constant that is lent, by a function that may keep a pointer")),
        false => Ok(()),
    }
}

/// The types of which a declared one is made, if it is declared.
fn made_of<'a>(name: &Json, types: &'a [Json]) -> Option<Vec<&'a Json>> {
    let declared = types.iter().find(|declared| declared.of("name") == name.of("name"))?;
    match declared.of("shape")?.variant()? {
        ("Fields", fields) => Some(fields.list()?.iter().collect()),
        ("Variants", variants) => {
            Some(variants.list()?.iter().flat_map(|fields| fields.list()).flatten().collect())
        }
        _ => None,
    }
}

fn holds_pointer(of: &Json, types: &[Json], above: &mut Vec<Json>) -> bool {
    match of.variant() {
        Some(("Int" | "Bool" | "Unit", _)) => false,
        Some(("Array", inner)) => inner.list().is_none_or(|array| holds_pointer(&array[0], types, above)),
        Some(("Named", inner)) if !above.contains(of) => {
            above.push(of.clone());
            let fields = inner.list().and_then(|named| made_of(&named[0], types));
            fields.is_none_or(|fields| fields.into_iter().any(|field| holds_pointer(field, types, above)))
        }
        Some(("Named", _)) => false,
        _ => true,
    }
}

/// Whether something may be written to, through a value of a type, that holds a pointer.
fn may_keep(of: &Json, types: &[Json], above: &mut Vec<Json>) -> bool {
    match (of.variant(), of.variant().and_then(|(_, inner)| inner.list())) {
        (Some(("Int" | "Bool" | "Unit", _)), _) => false,
        (Some(("Ref", _)), Some([_, mutability, to])) => {
            mutability.text() != Some("Imm")
                && (holds_pointer(to, types, &mut Vec::new()) || may_keep(to, types, above))
        }
        (Some(("Array", _)), Some([of, _])) => may_keep(of, types, above),
        (Some(("Struct", _)), Some([_, Json::List(fields)])) => {
            fields.iter().any(|of| may_keep(of, types, above))
        }
        (Some(("Named", _)), Some([name, _])) if !above.contains(of) => {
            above.push(of.clone());
            let fields = made_of(name, types);
            fields.is_none_or(|fields| fields.into_iter().any(|field| may_keep(field, types, above)))
        }
        (Some(("Named", _)), _) => false,
        _ => true,
    }
}

/// The result is no pointer, and each local that points to something lent is mentioned twice, where it is lent and where its address is taken: what
/// is pointed to holds no pointers (`check`), so none is left behind.
fn check_lent(lent: &[Lent], locals: &Json, body: &Json) -> Result<(), Refused> {
    let result = locals.list().and_then(|locals| locals.first()).and_then(|local| local.of("ty"));
    let is_plain =
        result.and_then(Json::variant).is_some_and(|(kind, _)| ["Int", "Bool", "Unit"].contains(&kind));
    match lent.iter().find(|lent| !is_plain || mentions(body, &lent.pointer) != 2) {
        Some(lent) => {
            Err(Refused::new(format!("an array that is lent, and not only read here: local {}", lent.pointer)))
        }
        None => Ok(()),
    }
}

/// How often a body names a local.
fn mentions(of: &Json, local: &str) -> usize {
    match of {
        Json::List(items) => items.iter().map(|item| mentions(item, local)).sum(),
        Json::Map(entries) => entries
            .iter()
            .map(|(key, inner)| match (&key[..], inner.number()) {
                ("local", Some(number)) => usize::from(number == local),
                _ => mentions(inner, local),
            })
            .sum(),
        _ => 0,
    }
}

impl<'a> Body<'a> {
    fn next(&mut self) -> Result<&'a Json, Refused> {
        let (first, rest) =
            self.rest.split_first().ok_or_else(|| Refused::new("a body that ends too early"))?;
        self.rest = rest;
        Ok(first)
    }

    /// A sequence is a long list to the right: it is followed, and not descended into.
    fn statement(&mut self) -> Result<Node, Refused> {
        let mut before = Vec::new();
        while let Some(Json::Text(kind)) = self.rest.first() {
            if kind != "Seq" {
                break;
            }
            self.next()?;
            before.push(self.statement()?);
        }
        let last = self.simple()?;
        Ok(before.into_iter().rev().fold(last, |rest, first| list("seq", [first, rest])))
    }

    fn simple(&mut self) -> Result<Node, Refused> {
        let of = self.next()?;
        let (kind, inner) = of.variant().ok_or_else(|| unknown("statement", of))?;
        match (kind, inner.list()) {
            ("Skip", _) => Ok(word("skip")),
            ("Return", _) => Ok(word("return")),
            ("Unreachable", _) => Ok(word("unreachable")),
            ("Block", _) => Ok(list("block", [self.statement()?])),
            ("Loop", _) => Ok(list("loop", [self.statement()?])),
            ("Exit", _) => Ok(list("exit", [number(inner)?])),
            ("Assign", Some([target, value])) => {
                let value = self.address_of_lent(value)?.map_or_else(|| rvalue(value), Ok)?;
                Ok(list("assign", [place(target)?, value]))
            }
            ("LendStatic", Some([pointer, of, numbers])) => self.lend(pointer, of, numbers),
            ("Call", Some([function, arguments, target])) => call(function, arguments, target),
            ("If", _) => Ok(list("if", [operand(inner)?, self.statement()?, self.statement()?])),
            ("Switch", Some([on, keys, Json::Bool(has_default)])) => self.switch(on, keys, *has_default),
            _ => Err(unknown("statement", of)),
        }
    }

    /// What is lent, in a local of its own. The pointer to an array of numbers is followed at once, and any other one is put where it is wanted.
    fn lend(&mut self, pointer: &Json, of: &Json, constant: &Json) -> Result<Node, Refused> {
        let mut before = Vec::new();
        let value = self.constant(of, constant, &mut before)?;
        let own = self.own_local(ty(of)?, "memorySlot");
        let place_of_own = list("place", [word(&own.to_string()), word("lnil")]);
        let made = list("assign", [place_of_own.clone(), value]);
        if constant.variant().is_some_and(|(kind, _)| kind == "Ints") {
            let (Some(local), Some(true)) =
                (pointer.of("local").and_then(Json::number), pointer.of("steps").map(Json::is_empty_list))
            else {
                return Err(unknown("place", pointer));
            };
            self.lent.push(Lent { pointer: local.to_string(), of: ty(of)?, array: own });
            return Ok(made);
        }
        self.lends = true;
        let lent = list("assign", [place(pointer)?, list("addrOf", [place_of_own])]);
        let all = before.into_iter().chain([made]);
        Ok(all.rev().fold(lent, |rest, first| list("seq", [first, rest])))
    }

    fn own_local(&mut self, of: Node, home: &str) -> usize {
        self.own.push(list("local", [of, word(home)]));
        self.first_own + self.own.len() - 1
    }

    /// A constant of a type, where its parts that have parts of their own are put into locals before.
    fn constant(&mut self, of: &Json, constant: &Json, before: &mut Vec<Node>) -> Result<Node, Refused> {
        let wrong = || unknown("constant", constant);
        let (kind, inner) = constant.variant().ok_or_else(wrong)?;
        let (of_kind, of_inner) = of.variant().ok_or_else(|| unknown("type", of))?;
        let operand = |of: Node| Ok(list("rvOpd", [of]));
        match (kind, of_kind) {
            ("Int", "Int") if inner.of("width") == Some(of_inner) => {
                operand(list("int", [number(of_inner)?, number(inner.of("value").ok_or_else(wrong)?)?]))
            }
            ("Bool", "Bool") => operand(word(if *inner == Json::Bool(true) { "true" } else { "false" })),
            ("Unit", "Unit") => operand(word("unit")),
            ("Ints", "Array") => {
                let (Some(width), Some(values)) = (inner.of("width"), inner.of("values")) else {
                    return Err(wrong());
                };
                let made = each(values, "numbers", |value| Ok(list("int", [number(width)?, number(value)?])))?;
                let is_of_width = element_of(of, made.len()).and_then(Json::variant) == Some(("Int", width));
                match is_of_width {
                    true => Ok(list("aggregate", [cons(made, "lcons", "lnil")])),
                    false => Err(wrong()),
                }
            }
            ("Parts", _) => {
                let parts = inner.list().ok_or_else(wrong)?;
                let types = self.part_types(of, parts).ok_or_else(wrong)?;
                let mut made = Vec::new();
                for (part, of) in parts.iter().zip(types) {
                    made.push(match self.constant(&of, part, before)? {
                        Node::List(value) if value.first() == Some(&word("rvOpd")) => value[1].clone(),
                        value => {
                            let own = self.own_local(ty(&of)?, "valueLocal");
                            let held = list("place", [word(&own.to_string()), word("lnil")]);
                            before.push(list("assign", [held.clone(), value]));
                            list("copy", [held])
                        }
                    });
                }
                Ok(list("aggregate", [cons(made, "lcons", "lnil")]))
            }
            _ => Err(wrong()),
        }
    }

    /// The types of a constant's parts, as many as there are: an array's elements, a struct's fields, or an enum's tag and its variant's fields.
    fn part_types(&self, of: &Json, parts: &[Json]) -> Option<Vec<Json>> {
        if let Some(element) = element_of(of, parts.len()) {
            return Some(vec![element.clone(); parts.len()]);
        }
        let ("Named", inner) = of.variant()? else { return None };
        let name = inner.list()?.first()?.of("name");
        let declared = self.types.iter().find(|declared| declared.of("name") == name)?;
        let types = match declared.of("shape")?.variant()? {
            ("Fields", fields) => fields.list()?.to_vec(),
            ("Variants", variants) => {
                let ("Int", tag) = parts.first()?.variant()? else { return None };
                let fields = variants.list()?.get(tag.of("value")?.number()?.parse::<usize>().ok()?)?.list()?;
                let tag = Json::Map(vec![("Int".to_string(), Json::Number("8".to_string()))]);
                [&[tag], fields].concat()
            }
            _ => return None,
        };
        (types.len() == parts.len()).then_some(types)
    }

    /// The address of an array that was lent, where that is what is taken.
    fn address_of_lent(&self, value: &Json) -> Result<Option<Node>, Refused> {
        let Some(("AddrOf", of)) = value.variant() else { return Ok(None) };
        let pointer = of.of("local").and_then(Json::number);
        let Some(at) = self.lent.iter().position(|lent| Some(lent.pointer.as_str()) == pointer) else {
            return Ok(None);
        };
        let to = match of.of("steps").and_then(Json::list) {
            Some([step]) => {
                step.variant().filter(|(kind, _)| *kind == "Deref").map(|(_, to)| ty(to)).transpose()?
            }
            _ => None,
        };
        if to.as_ref() != Some(&self.lent[at].of) {
            return Err(unknown("use of what is lent", of));
        }
        let array = list("place", [word(&self.lent[at].array.to_string()), word("lnil")]);
        Ok(Some(list("addrOf", [array])))
    }

    fn switch(&mut self, on: &Json, keys: &Json, has_default: bool) -> Result<Node, Refused> {
        let mut arms = Vec::new();
        for keys in keys.list().ok_or_else(|| unknown("keys", keys))? {
            arms.push((cons(each(keys, "keys", number)?, "lcons", "lnil"), self.statement()?));
        }
        let last = if has_default { list("default", [self.statement()?]) } else { word("noDefault") };
        let arms = arms.into_iter().rev().fold(last, |rest, (keys, body)| list("arm", [keys, body, rest]));
        Ok(list("switch", [operand(on)?, arms]))
    }
}

/// A direct call of a function that is for no type but its own.
fn call(function: &Json, arguments: &Json, target: &Json) -> Result<Node, Refused> {
    let Some(("Fn", inner)) = function.variant() else { return Err(unknown("call", function)) };
    let Some([Json::Text(name), at]) = inner.list() else { return Err(unknown("call", function)) };
    if !["types", "dicts"].iter().all(|key| at.of(key).is_some_and(Json::is_empty_list)) {
        return Err(Refused::new(format!("a call of a function for several types: {name}")));
    }
    let called = list("direct", [list("fnRef", [Node::Text(name.to_string())])]);
    Ok(list("call", [called, operands(arguments)?, place(target)?]))
}

/// What an array of so many elements is of.
fn element_of(of: &Json, count: usize) -> Option<&Json> {
    let ("Array", inner) = of.variant()? else { return None };
    let [element, length] = inner.list()? else { return None };
    let ("Lit", length) = length.variant()? else { return None };
    (length.number()? == count.to_string()).then_some(element)
}

fn place(of: &Json) -> Result<Node, Refused> {
    let (Some(local), Some(steps)) = (of.of("local"), of.of("steps")) else { return Err(unknown("place", of)) };
    Ok(list("place", [number(local)?, cons(each(steps, "steps of a place", step)?, "lcons", "lnil")]))
}

fn step(of: &Json) -> Result<Node, Refused> {
    match of.variant() {
        Some(("Deref", to)) => Ok(list("deref", [ty(to)?])),
        Some(("Field", at)) => Ok(list("field", [number(at)?])),
        Some(("Variant", at)) => Ok(list("variant", [number(at)?])),
        _ => Err(unknown("step of a place", of)),
    }
}

fn operands(of: &Json) -> Result<Node, Refused> {
    Ok(cons(each(of, "operands", operand)?, "lcons", "lnil"))
}

fn operand(of: &Json) -> Result<Node, Refused> {
    let (kind, inner) = of.variant().ok_or_else(|| unknown("operand", of))?;
    match (kind, inner.of("width"), inner.of("value")) {
        ("Copy", _, _) => Ok(list("copy", [place(inner)?])),
        ("Int", Some(width), Some(value)) => Ok(list("int", [number(width)?, number(value)?])),
        ("True", _, _) => Ok(word("true")),
        ("False", _, _) => Ok(word("false")),
        ("Unit", _, _) => Ok(word("unit")),
        ("SizeOf", _, _) => Ok(list("sizeOf", [ty(inner)?])),
        _ => Err(unknown("operand", of)),
    }
}

fn rvalue(of: &Json) -> Result<Node, Refused> {
    let (kind, inner) = of.variant().ok_or_else(|| unknown("value", of))?;
    match (kind, inner.list()) {
        ("Opd", _) => Ok(list("rvOpd", [operand(inner)?])),
        ("Op2", Some([operation, left, right])) => {
            Ok(list("op2", [signed(operation)?, operand(left)?, operand(right)?]))
        }
        ("Op1", Some([operation, of])) => Ok(list("op1", [signed(operation)?, operand(of)?])),
        ("AddrOf", _) => Ok(list("addrOf", [place(inner)?])),
        ("Aggregate", _) => Ok(list("aggregate", [operands(inner)?])),
        ("Repeat", Some([of, count])) => Ok(list("repeat", [operand(of)?, literal(count)?])),
        _ => Err(unknown("value", of)),
    }
}

/// An operation's name, which begins with a small letter in the term, and what it says of signs and widths. `program` knows which there are.
fn signed(of: &Json) -> Result<Node, Refused> {
    let small = |name: &str| {
        let mut characters = name.chars();
        let first = characters.next().map(|first| first.to_ascii_lowercase());
        word(&first.into_iter().chain(characters).collect::<String>())
    };
    let part = |of: &Json| match of {
        Json::Text(name) => Ok(small(name)),
        _ => number(of),
    };
    match of.variant() {
        Some((name, Json::Null)) => Ok(small(name)),
        Some((name, Json::List(parts))) => {
            let parts: Vec<Node> = parts.iter().map(part).collect::<Result<_, _>>()?;
            Ok(Node::List([small(name)].into_iter().chain(parts).collect()))
        }
        Some((name, inner)) => Ok(Node::List(vec![small(name), part(inner)?])),
        None => Err(unknown("operation", of)),
    }
}
