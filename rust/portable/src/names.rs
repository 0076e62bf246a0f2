//! What everything is called in C: by the sources where they tell, by its number where they do not. Names are held apart from those
//! of C and from one another.

use crate::declare::{c_name, type_name};
use crate::sources::{FunctionNames, Sources, TypeNames, COUNTED, HIDDEN, LOOP};
use crate::tree::{Function, Local, Program, Shape, Ty, Width};
use crate::{Form, Refused};
use std::collections::{BTreeMap, BTreeSet};

/// The words of C that a name of the sources could be, what the file takes from its headers, and a name of its own.
const TAKEN: [&str; 41] = [
    "auto", "break", "case", "char", "const", "continue", "default", "do", "double", "else", "enum", "extern",
    "float", "for", "goto", "if", "inline", "int", "long", "register", "restrict", "return", "short", "signed",
    "sizeof", "static", "struct", "switch", "typedef", "union", "unsigned", "void", "volatile", "while", "asm",
    "memcpy", "memset", "size_t", "ssize_t", "typeof", "at_each",
];

/// The enums of the kit's that have names of their own here.
const OF_KIT: [(&str, &[&str]); 4] = [
    ("core::option::Option", &["None", "Some"]),
    ("core::result::Result", &["Ok", "Err"]),
    ("core::ops::ControlFlow", &["Continue", "Break"]),
    ("core::cmp::Ordering", &["Less", "Equal", "Greater"]),
];

/// The traits that are derived, whose names stand behind a type's in the path of a method.
const DERIVED: [&str; 5] = ["PartialEq", "Eq", "PartialOrd", "Ord", "Clone"];

pub struct Names<'a> {
    sources: &'a Sources,
    types: BTreeMap<String, (Vec<String>, TypeNames)>,
    /// The names outside of functions.
    global: BTreeSet<String>,
}

impl<'a> Names<'a> {
    pub fn new(program: &Program, sources: &'a Sources) -> Result<Names<'a>, Refused> {
        let mut names = Names { sources, types: BTreeMap::new(), global: BTreeSet::new() };
        for (name, shape) in &program.types {
            let of_type = type_names(name, shape, sources).map_err(|refused| refused.of(name))?;
            names.types.insert(name.clone(), of_type);
            names.take(type_name(name), name)?;
        }
        for function in &program.functions {
            names.take(names.function(&function.name), &function.name)?;
            names.check_params(function)?;
        }
        match sources.exported().find(|path| program.function(path).is_none()) {
            Some(path) => Err(Refused::new("a call for C that the program does not have").of(path)),
            None => Ok(names),
        }
    }

    fn take(&mut self, c_name: String, path: &str) -> Result<(), Refused> {
        if self.global.insert(c_name) {
            Ok(())
        } else {
            Err(Refused::new("another name is the same in C").of(path))
        }
    }

    fn check_params(&self, function: &Function) -> Result<(), Refused> {
        match self.sources.functions.get(path_of(&function.name)) {
            Some(names) if names.params.len() != function.params => Err(Refused::new(format!(
                "{} parameters in the sources, {} in the term",
                names.params.len(),
                function.params
            ))
            .of(&function.name)),
            _ => Ok(()),
        }
    }

    /// A function for C has its own name, any other its path.
    pub fn function(&self, path: &str) -> String {
        match path.rsplit("::").next() {
            Some(last) if self.is_exported(path) => last.to_string(),
            _ => c_name(path),
        }
    }

    /// Whether a function is one of the kit's, a closure's, or one that a derive makes.
    pub fn is_made(&self, path: &str) -> bool {
        let path = path_of(path);
        let of = path.rsplit("::").nth(1).unwrap_or_default();
        let is_derived = DERIVED.iter().any(|name| of.ends_with(name));
        !self.sources.functions.contains_key(path)
            && (path.starts_with("core::") || path.contains('+') || path.contains("::fn::") || is_derived)
    }

    pub fn is_exported(&self, path: &str) -> bool {
        self.sources.is_exported(path)
    }

    pub fn comment(&self, path: &str) -> &'a [String] {
        self.sources.functions.get(path_of(path)).map_or(&[], |names| &names.comment)
    }

    pub fn of_type(&self, name: &str) -> (&[String], &TypeNames) {
        let (comment, names) = &self.types[name];
        (comment, names)
    }

    /// The locals of a function. In the plain form they have the term's numbers.
    pub fn locals(&self, function: &Function, form: Form) -> Vec<String> {
        let numbered = |number: usize| format!("t{number}");
        let count = function.locals.len();
        match (form, self.sources.functions.get(path_of(&function.name))) {
            (Form::Reading, Some(names)) => {
                let mut taken: BTreeSet<String> = (0..count).map(numbered).collect();
                let called = self.called(names, function);
                (0..count)
                    .map(|number| match called.get(&number) {
                        Some(name) => self.apart(name, &mut taken),
                        None => numbered(number),
                    })
                    .collect()
            }
            _ => (0..count).map(numbered).collect(),
        }
    }

    /// The parameters, and behind them what the source binds, in its order.
    fn called(&self, names: &FunctionNames, function: &Function) -> BTreeMap<usize, String> {
        let mut called = BTreeMap::new();
        let mut at = 1;
        for name in names.params.iter().chain(&names.bound) {
            match &name[..] {
                HIDDEN => at += 1,
                LOOP | COUNTED => {
                    let rest = &function.locals[at.min(function.locals.len())..];
                    at += of_loop(rest, name == COUNTED);
                }
                _ if at < function.locals.len() => {
                    called.insert(at, name.clone());
                    at += 1;
                }
                _ => {}
            }
        }
        called
    }

    /// The locals that the source has a name for: they stay, whatever is folded.
    pub fn kept(&self, function: &Function) -> BTreeSet<usize> {
        match self.sources.functions.get(path_of(&function.name)) {
            Some(names) => self.called(names, function).into_keys().collect(),
            None => (1..=function.params).collect(),
        }
    }

    fn apart(&self, name: &str, taken: &mut BTreeSet<String>) -> String {
        let mut made = name.to_string();
        let mut next = 2;
        while TAKEN.contains(&made.as_str()) || self.global.contains(&made) || !taken.insert(made.clone()) {
            made = format!("{name}_{next}");
            next += 1;
        }
        made
    }
}

/// What the sources have of an instance: its name without what stands for its parameters.
fn path_of(name: &str) -> &str {
    &name[..name.find('<').unwrap_or(name.len())]
}

/// How many locals a `for` has before its pattern's: what it goes over, where that is held, and a counter; or an iterator, twice, and what it gives.
fn of_loop(locals: &[Local], is_counted: bool) -> usize {
    let held = match locals.first().map(|local| &local.ty) {
        Some(Ty::Named(_)) => return 3,
        Some(Ty::Slice { .. } | Ty::Ref { .. }) => 1,
        _ => 0,
    };
    held + usize::from(!is_counted && locals.get(held).is_some_and(|local| local.ty == Ty::Int(Width::W64)))
}

/// The fields' names. A type that the sources do not have gets numbers; one that they have otherwise is refused.
fn type_names(name: &str, shape: &Shape, sources: &Sources) -> Result<(Vec<String>, TypeNames), Refused> {
    let Some((comment, names)) = sources.types.get(path_of(name)) else {
        let known = OF_KIT.iter().find(|(of, _)| *of == path_of(name)).map(|(_, variants)| *variants);
        return Ok((Vec::new(), numbered(shape, known.unwrap_or_default())));
    };
    let fits = match (shape, names) {
        (Shape::Fields(fields), TypeNames::Fields(names)) => fields.len() == names.len(),
        (Shape::Variants(variants), TypeNames::Variants(names)) => {
            variants.len() == names.len()
                && variants.iter().zip(names).all(|(fields, (_, names))| fields.len() == names.len())
        }
        _ => false,
    };
    if fits {
        Ok((comment.clone(), apart_from_c(names)))
    } else {
        Err(Refused::new("the sources have other fields than the term"))
    }
}

/// Numbers for fields, and for variants that have no names.
fn numbered(shape: &Shape, known: &[&str]) -> TypeNames {
    let fields = |count: usize| (0..count).map(|number| format!("f{number}")).collect::<Vec<_>>();
    match shape {
        Shape::Fields(of) => TypeNames::Fields(fields(of.len())),
        Shape::Variants(of) => {
            let name = |number: usize| known.get(number).map_or(format!("v{number}"), |name| name.to_string());
            let variant = |(number, of): (usize, &Vec<_>)| (name(number), fields(of.len()));
            TypeNames::Variants(of.iter().enumerate().map(variant).collect())
        }
    }
}

fn apart_from_c(names: &TypeNames) -> TypeNames {
    let apart = |name: &String| if TAKEN.contains(&name.as_str()) { format!("{name}_") } else { name.clone() };
    match names {
        TypeNames::Fields(fields) => TypeNames::Fields(fields.iter().map(apart).collect()),
        TypeNames::Variants(variants) => TypeNames::Variants(
            variants.iter().map(|(name, fields)| (apart(name), fields.iter().map(apart).collect())).collect(),
        ),
    }
}
