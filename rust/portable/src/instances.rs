//! Functions and types for several types: of each one for every list of arguments that the calls for C reach, as the toolchain's definition of
//! MIR puts them in (`Mir/Inst`, `Mir/MapTy`, `Mir/Table`). What comes out has no parameters left.
//!
//! - A parameter of a function or a declared type stands for a type or for a number, by its place among the arguments.
//! - A dictionary is an impl: its methods, with arguments for the impl's own parameters. A function is given one for each of its bounds. A call of
//!   a dictionary's method is a call of that method at the impl's arguments, and behind them the call's own.
//! - The impls that a function names stand beside it, as do the types that it lays out. One name is one impl, and one type, in the whole program.
//! - Lifetimes say nothing of what a program does, and are left out.

use crate::json::Json;
use crate::Refused;
use std::cell::RefCell;
use std::collections::{BTreeMap, BTreeSet};

/// An impl that answers for a bound.
#[derive(Clone, Debug, PartialEq, Eq, PartialOrd, Ord)]
struct Dict {
    methods: Vec<String>,
    types: Vec<Json>,
    dicts: Vec<Dict>,
}

/// A function at arguments for its parameters.
#[derive(Clone, Debug, PartialEq, Eq, PartialOrd, Ord)]
struct Instance {
    function: String,
    types: Vec<Json>,
    dicts: Vec<Dict>,
}

impl Instance {
    /// The least of a function's.
    fn first(function: &str) -> Instance {
        Instance { function: function.to_string(), types: Vec::new(), dicts: Vec::new() }
    }
}

/// How deep arguments may lie within one another: a function that calls itself at ever longer ones has no end.
const DEEPEST: usize = 24;

/// The functions that are reached from some, each without parameters, in the order in which they were given.
pub fn instances(functions: &[(String, Json)], roots: &[&str]) -> Result<Vec<(String, Json)>, Refused> {
    let library = Library::new(functions);
    let mut waiting: Vec<Instance> = roots.iter().map(|root| Instance::first(root)).collect();
    let mut reached = BTreeSet::new();
    while let Some(instance) = waiting.pop() {
        if !reached.contains(&instance) {
            let of = |refused: Refused| refused.of(&instance.function);
            if let Some(made) = Made::new(&library, &instance).map_err(of)? {
                waiting.extend(made.calls().map_err(of)?);
            }
            reached.insert(instance);
        }
    }
    let names = names(&reached)?;
    let mut written = Vec::new();
    for (function, _) in functions {
        for (instance, name) in
            names.range(Instance::first(function)..).take_while(|(one, _)| one.function == *function)
        {
            let of = |refused: Refused| refused.of(function);
            if let Some(made) = Made::new(&library, instance).map_err(of)? {
                written.push((name.clone(), made.written(&names).map_err(of)?));
            }
        }
    }
    Ok(written)
}

/// What instances are called: the function's name, with the types; where two differ in their impls alone, with these too.
fn names(reached: &BTreeSet<Instance>) -> Result<BTreeMap<Instance, String>, Refused> {
    let mut alike: BTreeMap<(&str, &[Json]), usize> = BTreeMap::new();
    for instance in reached {
        *alike.entry((&instance.function, &instance.types)).or_insert(0) += 1;
    }
    let mut names = BTreeMap::new();
    let mut taken = BTreeSet::new();
    for instance in reached {
        let mut arguments: Vec<String> = instance.types.iter().map(text).collect::<Result<_, _>>()?;
        if alike[&(&instance.function[..], &instance.types[..])] > 1 {
            arguments.extend(instance.dicts.iter().map(dict_text).collect::<Result<Vec<_>, _>>()?);
        }
        let name = applied(&instance.function, &arguments);
        if !taken.insert(name.clone()) {
            return Err(Refused::new("two instances of one name").of(&name));
        }
        names.insert(instance.clone(), name);
    }
    Ok(names)
}

fn applied(name: &str, arguments: &[String]) -> String {
    if arguments.is_empty() {
        name.to_string()
    } else {
        format!("{name}<{}>", arguments.join(", "))
    }
}

fn dict_text(dict: &Dict) -> Result<String, Refused> {
    let types = dict.types.iter().map(text);
    let inner: Vec<String> = types.chain(dict.dicts.iter().map(dict_text)).collect::<Result<_, _>>()?;
    let methods: Vec<&str> = dict.methods.iter().map(String::as_str).collect();
    Ok(applied(&format!("by {}", methods.join(" and ")), &inner))
}

/// A type as it stands in a name.
fn text(of: &Json) -> Result<String, Refused> {
    let unknown = || unknown("type", of);
    let (kind, inner) = of.variant().ok_or_else(unknown)?;
    match (kind, inner.list()) {
        ("Unit", _) => Ok("unit".to_string()),
        ("Bool", _) => Ok("bool".to_string()),
        ("Ptr", _) => Ok("pointer".to_string()),
        ("Int", _) => inner.number().map(|width| format!("u{width}")).ok_or_else(unknown),
        ("Const", _) => inner.number().map(str::to_string).ok_or_else(unknown),
        ("Ref", Some([_, mutability, to])) => match mutability.text() {
            Some("Imm") => Ok(applied("ref", &[text(to)?])),
            Some("Mut") => Ok(applied("mut", &[text(to)?])),
            _ => Err(unknown()),
        },
        ("Array", Some([of, length])) => match length.variant() {
            Some(("Lit", length)) => {
                Ok(applied("array", &[text(of)?, length.number().ok_or_else(unknown)?.to_string()]))
            }
            _ => Err(unknown()),
        },
        ("Struct", Some([Json::Text(name), Json::List(fields)])) if name == "&[]" => match &fields[..] {
            [pointer, _] => match text(pointer)?.split_once('<') {
                Some(("ref", of)) => Ok(format!("slice<{of}")),
                Some(("mut", of)) => Ok(format!("slice_mut<{of}")),
                _ => Err(unknown()),
            },
            _ => Err(unknown()),
        },
        ("Named", Some([head, Json::List(arguments)])) => {
            let arguments: Vec<String> = arguments.iter().map(text).collect::<Result<_, _>>()?;
            Ok(applied(readable(name_of(head)?), &arguments))
        }
        _ => Err(unknown()),
    }
}

/// A tuple is one of a struct's names that has no letter.
fn readable(name: &str) -> &str {
    if name.starts_with("(,") {
        "tuple"
    } else {
        name
    }
}

fn name_of(head: &Json) -> Result<&str, Refused> {
    head.of("name").and_then(Json::text).ok_or_else(|| unknown("name of a type", head))
}

fn unknown(what: &str, of: &Json) -> Refused {
    Refused::new(format!("unknown {what}: {}", of.short()))
}

fn word(word: &str) -> Json {
    Json::Text(word.to_string())
}

fn variant(kind: &str, inner: Json) -> Json {
    Json::Map(vec![(kind.to_string(), inner)])
}

fn part<'a>(of: &'a Json, key: &str) -> Result<&'a Json, Refused> {
    of.of(key).ok_or_else(|| Refused::new(format!("a function without its {key}")))
}

fn each<'a>(of: &'a Json, what: &str) -> Result<&'a [Json], Refused> {
    of.list().ok_or_else(|| unknown(what, of))
}

/// What all functions together declare.
struct Library<'a> {
    items: BTreeMap<&'a str, &'a Json>,
    /// The names that two functions have.
    twice: BTreeSet<&'a str>,
    /// What each name of a type is declared as: one thing, if it is used.
    types: BTreeMap<&'a str, Vec<&'a Json>>,
    /// The methods by which a library says that nothing is to be done for a value that goes: each has its own, and the first stands for those
    /// that are the same.
    nothing: BTreeMap<&'a str, &'a str>,
}

/// What a type's name stands for, its lifetimes aside.
const OF_A_TYPE: [&str; 4] = ["type_params", "const_params", "is_cell", "shape"];

impl<'a> Library<'a> {
    fn new(functions: &'a [(String, Json)]) -> Library<'a> {
        let mut library = Library {
            items: BTreeMap::new(),
            twice: BTreeSet::new(),
            types: BTreeMap::new(),
            nothing: BTreeMap::new(),
        };
        let mut first: Vec<(&str, &Json)> = Vec::new();
        for (name, item) in functions {
            if library.items.insert(name, item).is_some() {
                library.twice.insert(name);
            }
            if name.ends_with("::Destruct++none::drop") {
                match first.iter().find(|(_, known)| is_same(known, item, &["params", "locals", "body"])) {
                    Some((known, _)) => _ = library.nothing.insert(name, known),
                    None => first.push((name, item)),
                }
            }
            for declared in item.of("types").and_then(Json::list).unwrap_or_default() {
                if let Some(name) = declared.of("name").and_then(Json::text) {
                    let known = library.types.entry(name).or_default();
                    if !known.iter().any(|known| is_same(known, declared, &OF_A_TYPE)) {
                        known.push(declared);
                    }
                }
            }
        }
        library
    }

    fn item(&self, name: &str) -> Result<Option<&'a Json>, Refused> {
        if self.twice.contains(name) {
            return Err(Refused::new("two functions of one name").of(name));
        }
        Ok(self.items.get(name).copied())
    }

    /// The function that stands for one that does nothing.
    fn first(&self, name: &str) -> String {
        self.nothing.get(name).copied().unwrap_or(name).to_string()
    }

    /// What a type is declared as, if it is.
    fn declared(&self, name: &str) -> Result<Option<&'a Json>, Refused> {
        match self.types.get(name).map(Vec::as_slice) {
            None | Some([]) => Ok(None),
            Some([declared]) => Ok(Some(declared)),
            Some(_) => Err(Refused::new(format!("two types of the name {name}"))),
        }
    }
}

fn is_same(one: &Json, other: &Json, keys: &[&str]) -> bool {
    keys.iter().all(|key| one.of(key).is_some() && one.of(key) == other.of(key))
}

/// What is put in for the parameters of a function or of a declared type: nothing for what has none.
#[derive(Clone, Copy)]
struct Arguments<'a> {
    types: &'a [Json],
    dicts: &'a [Dict],
}

/// A function at an instance's arguments.
struct Made<'a> {
    library: &'a Library<'a>,
    item: &'a Json,
    at: Arguments<'a>,
    /// The impls that the function names.
    impls: BTreeMap<&'a str, &'a Json>,
    /// The instances that it calls, and what they are called, where that is known.
    called: RefCell<Vec<Instance>>,
    names: Option<&'a BTreeMap<Instance, String>>,
    /// The declared types that it uses.
    used: RefCell<Vec<Json>>,
}

impl<'a> Made<'a> {
    fn new(library: &'a Library<'a>, instance: &'a Instance) -> Result<Option<Made<'a>>, Refused> {
        let Some(item) = library.item(&instance.function)? else { return Ok(None) };
        let generics = part(item, "generics")?;
        let kinds: Vec<Option<u32>> =
            each(part(generics, "types")?, "types")?.iter().map(bits_of_parameter).collect();
        let bounds = each(part(generics, "bounds")?, "bounds")?;
        if instance.types.len() != kinds.len() || instance.dicts.len() != bounds.len() {
            return Err(Refused::new(format!(
                "a function for several types, {} and {} dictionaries, at {} and {}",
                kinds.len(),
                bounds.len(),
                instance.types.len(),
                instance.dicts.len()
            )));
        }
        check_kinds(&kinds, &instance.types)?;
        let mut impls = BTreeMap::new();
        for stated in generics.of("impls").and_then(Json::list).unwrap_or_default() {
            let name = stated.of("name").and_then(Json::text).ok_or_else(|| unknown("impl", stated))?;
            impls.insert(name, stated);
        }
        let at = Arguments { types: &instance.types, dicts: &instance.dicts };
        Ok(Some(Made {
            library,
            item,
            at,
            impls,
            called: RefCell::default(),
            names: None,
            used: RefCell::default(),
        }))
    }

    /// The instances that the function calls.
    fn calls(self) -> Result<Vec<Instance>, Refused> {
        self.body()?;
        Ok(self.called.into_inner())
    }

    /// The function without parameters, which calls instances by their names and declares the types that it uses.
    fn written(mut self, names: &'a BTreeMap<Instance, String>) -> Result<Json, Refused> {
        self.names = Some(names);
        let mut types = self.own_types()?;
        let locals = each(part(self.item, "locals")?, "locals")?.iter().map(|local| self.local(local));
        let locals = Json::List(locals.collect::<Result<_, _>>()?);
        let body = self.body()?;
        types.extend(self.used_types()?);
        let Json::Map(entries) = self.item else { return Err(unknown("function", self.item)) };
        let entry = |(key, of): &(String, Json)| {
            let of = match &key[..] {
                "generics" => Json::Map(vec![("types".to_string(), Json::List(Vec::new()))]),
                "types" => Json::List(types.clone()),
                "locals" => locals.clone(),
                "body" => body.clone(),
                _ => of.clone(),
            };
            (key.clone(), of)
        };
        Ok(Json::Map(entries.iter().map(entry).collect()))
    }

    /// The types without parameters that the function declares.
    fn own_types(&self) -> Result<Vec<Json>, Refused> {
        let mut made = Vec::new();
        for declared in each(part(self.item, "types")?, "types")? {
            if parameters(declared)?.is_empty() {
                made.push(self.declared(declared, &[], None)?);
            }
        }
        Ok(made)
    }

    /// The declared types that are used, and those that these are made of, but for those that the function declares itself.
    fn used_types(&self) -> Result<Vec<Json>, Refused> {
        let own = |name: &str| {
            let declared = self.item.of("types").and_then(Json::list).unwrap_or_default();
            declared.iter().any(|declared| declared.of("name").and_then(Json::text) == Some(name))
        };
        let mut made = Vec::new();
        let mut done = BTreeSet::new();
        loop {
            let Some(used) = self.used.borrow_mut().pop() else { return Ok(made) };
            let Some(("Named", Json::List(parts))) = used.variant() else { return Err(unknown("type", &used)) };
            let [head, Json::List(arguments)] = &parts[..] else { return Err(unknown("type", &used)) };
            let name = name_of(head)?;
            if !done.insert(used.clone()) || arguments.is_empty() && own(name) {
                continue;
            }
            match self.library.declared(name)? {
                Some(declared) => made.push(self.declared(declared, arguments, Some(&text(&used)?))?),
                // where it has to have a value, it is refused
                None if arguments.is_empty() => {}
                None => return Err(unknown("type", &used)),
            }
        }
    }

    /// A type's declaration, at arguments for its parameters.
    fn declared(&self, declared: &Json, arguments: &[Json], name: Option<&str>) -> Result<Json, Refused> {
        let kinds = parameters(declared)?;
        if kinds.len() != arguments.len() {
            return Err(unknown("number of arguments of a type", declared));
        }
        check_kinds(&kinds, arguments)?;
        let at = Arguments { types: arguments, dicts: &[] };
        let types = |of: &Json| -> Result<Json, Refused> {
            let types = each(of, "types")?.iter().map(|of| self.flat(&put(of, at)?));
            Ok(Json::List(types.collect::<Result<_, _>>()?))
        };
        let shape = declared.of("shape").ok_or_else(|| unknown("declaration", declared))?;
        let shape = match shape.variant() {
            Some(("Fields", fields)) => variant("Fields", types(fields)?),
            Some(("Variants", variants)) => {
                let variants = each(variants, "variants")?.iter().map(types);
                variant("Variants", Json::List(variants.collect::<Result<_, _>>()?))
            }
            _ => return Err(unknown("declaration", declared)),
        };
        let Json::Map(entries) = declared else { return Err(unknown("declaration", declared)) };
        let entry = |(key, of): &(String, Json)| {
            let of = match (&key[..], name) {
                ("shape", _) => shape.clone(),
                ("type_params", _) => Json::Number("0".to_string()),
                ("const_params", _) => Json::List(Vec::new()),
                ("name", Some(name)) => word(name),
                _ => of.clone(),
            };
            (key.clone(), of)
        };
        Ok(Json::Map(entries.iter().map(entry).collect()))
    }

    /// A type of the function's, with arguments for the parameters and one name for a declared type.
    fn ty(&self, of: &Json) -> Result<Json, Refused> {
        self.flat(&put(of, self.at)?)
    }

    /// A type without parameters, in which a declared one has one name for itself and its arguments.
    fn flat(&self, of: &Json) -> Result<Json, Refused> {
        let Some((kind, inner)) = of.variant() else { return Ok(of.clone()) };
        Ok(match (kind, inner.list()) {
            ("Ref", Some([lifetime, mutability, to])) => {
                variant(kind, Json::List(vec![lifetime.clone(), mutability.clone(), self.flat(to)?]))
            }
            ("Array", Some([of, length])) => variant(kind, Json::List(vec![self.flat(of)?, length.clone()])),
            ("Struct", Some([name, Json::List(fields)])) => {
                let fields = fields.iter().map(|field| self.flat(field)).collect::<Result<_, _>>()?;
                variant(kind, Json::List(vec![name.clone(), Json::List(fields)]))
            }
            ("Named", Some([_, Json::List(_)])) => {
                self.used.borrow_mut().push(of.clone());
                let head =
                    [("name".to_string(), word(&text(of)?)), ("lifetimes".to_string(), Json::List(Vec::new()))];
                variant(kind, Json::List(vec![Json::Map(head.to_vec()), Json::List(Vec::new())]))
            }
            _ => of.clone(),
        })
    }

    fn local(&self, of: &Json) -> Result<Json, Refused> {
        let Json::Map(entries) = of else { return Err(unknown("local", of)) };
        let entry = |(key, of): &(String, Json)| match &key[..] {
            "ty" => Ok((key.clone(), self.ty(of)?)),
            _ => Ok((key.clone(), of.clone())),
        };
        Ok(Json::Map(entries.iter().map(entry).collect::<Result<_, Refused>>()?))
    }

    fn body(&self) -> Result<Json, Refused> {
        let body = part(self.item, "body")?;
        match body.list() {
            Some(body) => Ok(Json::List(body.iter().map(|of| self.statement(of)).collect::<Result<_, _>>()?)),
            None => Ok(body.clone()),
        }
    }

    /// A statement; what is not known is left as it is, and refused where it is read.
    fn statement(&self, of: &Json) -> Result<Json, Refused> {
        let Some((kind, inner)) = of.variant() else { return Ok(of.clone()) };
        Ok(match (kind, inner.list()) {
            ("Assign", Some([target, value])) => list(kind, [self.place(target)?, self.value(value)?]),
            ("Call", Some([called, arguments, target])) => {
                list(kind, [self.callee(called)?, self.operands(arguments)?, self.place(target)?])
            }
            ("LendStatic", Some([target, of, constant])) => {
                list(kind, [self.place(target)?, self.ty(of)?, constant.clone()])
            }
            ("If", _) => variant(kind, self.operand(inner)?),
            ("Switch", Some([on, keys, default])) => {
                list(kind, [self.operand(on)?, keys.clone(), default.clone()])
            }
            _ => of.clone(),
        })
    }

    fn place(&self, of: &Json) -> Result<Json, Refused> {
        let (Some(local), Some(steps)) = (of.of("local"), of.of("steps").and_then(Json::list)) else {
            return Ok(of.clone());
        };
        let step = |step: &Json| match step.variant() {
            Some(("Deref", to)) => Ok(variant("Deref", self.ty(to)?)),
            _ => Ok(step.clone()),
        };
        let steps = Json::List(steps.iter().map(step).collect::<Result<_, Refused>>()?);
        Ok(Json::Map(vec![("local".to_string(), local.clone()), ("steps".to_string(), steps)]))
    }

    fn value(&self, of: &Json) -> Result<Json, Refused> {
        let Some((kind, inner)) = of.variant() else { return Ok(of.clone()) };
        Ok(match (kind, inner.list()) {
            ("Opd", _) => variant(kind, self.operand(inner)?),
            ("Op2", Some([operation, left, right])) => {
                list(kind, [operation.clone(), self.operand(left)?, self.operand(right)?])
            }
            ("Op1", Some([operation, of])) => list(kind, [operation.clone(), self.operand(of)?]),
            ("AddrOf", _) => variant(kind, self.place(inner)?),
            ("Aggregate", _) => variant(kind, self.operands(inner)?),
            ("Repeat", Some([of, count])) => list(kind, [self.operand(of)?, length(count, self.at)?]),
            _ => of.clone(),
        })
    }

    fn operands(&self, of: &Json) -> Result<Json, Refused> {
        let operands = each(of, "operands")?.iter().map(|of| self.operand(of));
        Ok(Json::List(operands.collect::<Result<_, _>>()?))
    }

    /// An operand: the number that a parameter stands for is a constant.
    fn operand(&self, of: &Json) -> Result<Json, Refused> {
        let Some((kind, inner)) = of.variant() else { return Ok(of.clone()) };
        match (kind, inner.list()) {
            ("Copy", _) => Ok(variant(kind, self.place(inner)?)),
            ("SizeOf", _) => Ok(variant(kind, self.ty(inner)?)),
            ("NumOf", Some([width, of])) => {
                let number = number_of(&put(of, self.at)?).ok_or_else(|| unknown("number", of))?;
                let width = width.number().and_then(|width| width.parse().ok());
                Ok(constant(width.ok_or_else(|| unknown("width", of))?, number))
            }
            _ => Ok(of.clone()),
        }
    }

    /// What is called: an instance by its name.
    fn callee(&self, of: &Json) -> Result<Json, Refused> {
        let (kind, inner) = of.variant().ok_or_else(|| unknown("call", of))?;
        let instance = match (kind, inner.list()) {
            ("Fn", Some([Json::Text(name), at])) => {
                Instance { function: name.clone(), types: self.types_at(at)?, dicts: self.dicts_at(at)? }
            }
            ("Method", Some([dict, number, at])) => {
                let dict = self.dict(dict)?;
                let number: Option<usize> = number.number().and_then(|number| number.parse().ok());
                let method = number.and_then(|number| dict.methods.get(number));
                Instance {
                    function: method.ok_or_else(|| unknown("method of an impl", of))?.clone(),
                    types: [dict.types, self.types_at(at)?].concat(),
                    dicts: [dict.dicts, self.dicts_at(at)?].concat(),
                }
            }
            _ => return Ok(of.clone()),
        };
        let deepest = instance.types.iter().map(depth).chain(instance.dicts.iter().map(dict_depth)).max();
        if deepest > Some(DEEPEST) {
            return Err(Refused::new(format!("types without an end for {}", instance.function)));
        }
        let name = match self.names {
            Some(names) => names.get(&instance).ok_or_else(|| unknown("call", of))?.clone(),
            None => String::new(),
        };
        self.called.borrow_mut().push(instance);
        let nothing = ["types", "dicts"].map(|key| (key.to_string(), Json::List(Vec::new())));
        Ok(list("Fn", [Json::Text(name), Json::Map(nothing.to_vec())]))
    }

    fn types_at(&self, of: &Json) -> Result<Vec<Json>, Refused> {
        let types = of.of("types").ok_or_else(|| unknown("call", of))?;
        each(types, "types")?.iter().map(|of| put(of, self.at)).collect()
    }

    fn dicts_at(&self, of: &Json) -> Result<Vec<Dict>, Refused> {
        let dicts = of.of("dicts").ok_or_else(|| unknown("call", of))?;
        each(dicts, "dictionaries")?.iter().map(|of| self.dict(of)).collect()
    }

    /// The impl that a dictionary is: one that the function names, at arguments, or the one that it is given.
    fn dict(&self, of: &Json) -> Result<Dict, Refused> {
        let missing = || unknown("dictionary", of);
        match of.variant() {
            Some(("Given", number)) => {
                let number: Option<usize> = number.number().and_then(|number| number.parse().ok());
                number.and_then(|number| self.at.dicts.get(number)).cloned().ok_or_else(missing)
            }
            Some(("Impl", inner)) => {
                let Some([Json::Text(name), types, dicts]) = inner.list() else { return Err(missing()) };
                let stated = self.impls.get(&name[..]).ok_or_else(missing)?;
                let types =
                    each(types, "types")?.iter().map(|of| put(of, self.at)).collect::<Result<Vec<_>, _>>()?;
                let dicts = each(dicts, "dictionaries")?.iter().map(|of| self.dict(of));
                let dicts = dicts.collect::<Result<Vec<_>, _>>()?;
                let part = |key: &str| each(stated.of(key).ok_or_else(missing)?, "impl");
                let kinds: Vec<Option<u32>> = part("types")?.iter().map(bits_of_parameter).collect();
                if kinds.len() != types.len() || part("bounds")?.len() != dicts.len() {
                    return Err(missing());
                }
                check_kinds(&kinds, &types)?;
                let method = |of: &Json| of.text().map(|name| self.library.first(name)).ok_or_else(missing);
                Ok(Dict {
                    methods: part("methods")?.iter().map(method).collect::<Result<_, _>>()?,
                    types,
                    dicts,
                })
            }
            _ => Err(missing()),
        }
    }
}

/// A type with arguments put in for its parameters, and no lifetimes. What is not known is left as it is, and refused where it is read.
fn put(of: &Json, at: Arguments) -> Result<Json, Refused> {
    let Some((kind, inner)) = of.variant() else { return Ok(of.clone()) };
    Ok(match (kind, inner.list()) {
        ("Param", _) => {
            let number: Option<usize> = inner.number().and_then(|number| number.parse().ok());
            let argument = number.and_then(|number| at.types.get(number));
            argument.cloned().ok_or_else(|| unknown("type", of))?
        }
        ("Ref", Some([_, mutability, to])) => list(kind, [word("Erased"), mutability.clone(), put(to, at)?]),
        ("Array", Some([of, count])) => list(kind, [put(of, at)?, length(count, at)?]),
        ("Struct", Some([name, Json::List(fields)])) => {
            let fields = fields.iter().map(|field| put(field, at)).collect::<Result<_, _>>()?;
            list(kind, [name.clone(), Json::List(fields)])
        }
        ("Named", Some([head, Json::List(arguments)])) => {
            let arguments = arguments.iter().map(|of| put(of, at)).collect::<Result<Vec<_>, _>>()?;
            let head =
                [("name".to_string(), word(name_of(head)?)), ("lifetimes".to_string(), Json::List(Vec::new()))];
            let made = list(kind, [Json::Map(head.to_vec()), Json::List(arguments)]);
            if depth(&made) > DEEPEST {
                return Err(Refused::new(format!("types without an end: {}", of.short())));
            }
            made
        }
        _ => of.clone(),
    })
}

/// An array's length, or a count: that of a parameter is the number that was put in.
fn length(of: &Json, at: Arguments) -> Result<Json, Refused> {
    match of.variant() {
        Some(("Param", _)) => {
            let number = number_of(&put(of, at)?).ok_or_else(|| unknown("length", of))?;
            Ok(variant("Lit", Json::Number(number.to_string())))
        }
        _ => Ok(of.clone()),
    }
}

/// The number that an argument is.
fn number_of(of: &Json) -> Option<u64> {
    match of.variant() {
        Some(("Const", number)) => number.number()?.parse().ok(),
        _ => None,
    }
}

fn constant(width: u64, value: u64) -> Json {
    let entry = |(key, number): (&str, u64)| (key.to_string(), Json::Number(number.to_string()));
    variant("Int", Json::Map([("width", width), ("value", value)].map(entry).to_vec()))
}

/// The bits of a parameter that stands for a number; none of one that stands for a type.
fn bits_of_parameter(of: &Json) -> Option<u32> {
    of.of("const_bits").and_then(Json::number).and_then(|bits| bits.parse().ok())
}

/// The parameters of a declared type.
fn parameters(declared: &Json) -> Result<Vec<Option<u32>>, Refused> {
    let wrong = || unknown("declaration", declared);
    let count = declared.of("type_params").and_then(Json::number).and_then(|count| count.parse().ok());
    let mut kinds = vec![None; count.filter(|count| *count < 64).ok_or_else(wrong)?];
    for number in declared.of("const_params").and_then(Json::list).ok_or_else(wrong)? {
        let Some([at, bits]) = number.list() else { return Err(wrong()) };
        let parsed = |of: &Json| of.number().and_then(|digits| digits.parse::<u32>().ok());
        let (Some(at), Some(bits)) = (parsed(at), parsed(bits)) else { return Err(wrong()) };
        *kinds.get_mut(at as usize).ok_or_else(wrong)? = Some(bits);
    }
    Ok(kinds)
}

/// A number stands where a number does, and a type where a type does.
fn check_kinds(kinds: &[Option<u32>], arguments: &[Json]) -> Result<(), Refused> {
    for (kind, argument) in kinds.iter().zip(arguments) {
        let fits = match (kind, number_of(argument)) {
            (Some(bits), Some(number)) => *bits >= 64 || number < 1 << bits,
            (None, None) => argument.variant().is_some_and(|(kind, _)| kind != "Const"),
            _ => false,
        };
        if !fits {
            return Err(unknown("argument", argument));
        }
    }
    Ok(())
}

/// How many types lie within one another.
fn depth(of: &Json) -> usize {
    match of {
        Json::List(items) => items.iter().map(depth).max().unwrap_or(0),
        Json::Map(entries) => entries.iter().map(|(_, of)| depth(of) + 1).max().unwrap_or(0),
        _ => 0,
    }
}

fn dict_depth(of: &Dict) -> usize {
    let types = of.types.iter().map(depth);
    1 + types.chain(of.dicts.iter().map(dict_depth)).max().unwrap_or(0)
}

fn list(kind: &str, parts: impl IntoIterator<Item = Json>) -> Json {
    variant(kind, Json::List(parts.into_iter().collect()))
}
