//! The type of every place and value, and what a raw pointer points to. A term that does not type is refused.

use crate::tree::{
    Base, Binary, Expr, Function, Local, Place, Program, Shape, Statement, Step, Ty, Unary, Width,
};
use crate::Refused;
use std::collections::BTreeMap;

pub struct Signature {
    pub params: Vec<Ty>,
    pub result: Ty,
}

/// What places and values are typed by: the declared types, and the functions that are called.
pub struct Types<'a> {
    shapes: &'a BTreeMap<String, Shape>,
    signatures: BTreeMap<&'a str, Signature>,
}

pub struct Layout {
    pub size: u64,
    align: u64,
}

impl<'a> Types<'a> {
    pub fn new(shapes: &'a BTreeMap<String, Shape>) -> Types<'a> {
        Types { shapes, signatures: BTreeMap::new() }
    }

    pub fn of(program: &'a Program) -> Types<'a> {
        let signature = |function: &'a Function| {
            let types: Vec<Ty> = function.locals.iter().map(|local| local.ty.clone()).collect();
            let params = types[1..=function.params].to_vec();
            (function.name.as_str(), Signature { params, result: types[0].clone() })
        };
        Types { shapes: &program.types, signatures: program.functions.iter().map(signature).collect() }
    }

    pub fn shape(&self, name: &str) -> Result<&'a Shape, Refused> {
        self.shapes.get(name).ok_or_else(|| Refused::new(format!("a type that is not declared: {name}")))
    }

    pub fn signature(&self, name: &str) -> Result<&Signature, Refused> {
        self.signatures
            .get(name)
            .ok_or_else(|| Refused::new(format!("a call of a function that is not there: {name}")))
    }

    /// Whether a type's values say nothing: it has none in C. A type that has a value of itself inside is none.
    pub fn is_valueless(&self, ty: &Ty) -> bool {
        match ty {
            Ty::Unit => true,
            Ty::Named(name) => match self.shapes.get(name) {
                Some(Shape::Fields(fields)) => {
                    fields.iter().all(|field| *field != *ty && self.is_valueless(field))
                }
                _ => false,
            },
            _ => false,
        }
    }

    /// Whether a type is an enum that has a value in one of its variants.
    pub fn is_enum_of_values(&self, ty: &Ty) -> bool {
        match ty {
            Ty::Named(name) => match self.shapes.get(name) {
                Some(Shape::Variants(variants)) => {
                    variants.iter().flatten().any(|field| !self.is_valueless(field))
                }
                _ => false,
            },
            _ => false,
        }
    }

    /// How a value lies in the machine's memory (`Prog/Memory`): a struct's fields one after another, each at a multiple of its alignment; an
    /// enum's tag in one byte, and behind it the fields of a variant.
    pub fn layout(&self, ty: &Ty) -> Result<Layout, Refused> {
        let plain = |size: u64| Ok(Layout { size, align: size });
        match ty {
            Ty::Unit => Ok(Layout { size: 0, align: 1 }),
            Ty::Bool => plain(1),
            Ty::Int(width) => plain(width.bits() / 8),
            Ty::Array(of, count) => {
                let element = self.layout(of)?;
                let size = element
                    .size
                    .checked_mul(*count)
                    .ok_or_else(|| Refused::new("an array that is too long"))?;
                Ok(Layout { size, ..element })
            }
            Ty::Named(name) => match self.shape(name)? {
                Shape::Fields(fields) => self.fields_behind(0, fields),
                Shape::Variants(variants) => {
                    let mut whole = Layout { size: 1, align: 1 };
                    for fields in variants {
                        let one = self.fields_behind(1, fields)?;
                        whole = Layout { size: whole.size.max(one.size), align: whole.align.max(one.align) };
                    }
                    Ok(Layout { size: whole.size.next_multiple_of(whole.align), ..whole })
                }
            },
            // pointers have another size on other processors
            Ty::Ptr | Ty::Ref { .. } | Ty::Slice { .. } => Err(Refused::new(format!("the size of {ty:?}"))),
        }
    }

    fn fields_behind(&self, start: u64, fields: &[Ty]) -> Result<Layout, Refused> {
        let mut whole = Layout { size: start, align: 1 };
        for field in fields {
            let field = self.layout(field)?;
            whole.size = whole.size.next_multiple_of(field.align) + field.size;
            whole.align = whole.align.max(field.align);
        }
        Ok(Layout { size: whole.size.next_multiple_of(whole.align), ..whole })
    }

    /// The bytes that the machine has for what a pointer may step over. What holds pointers, whose sizes differ, is none.
    pub fn size_of(&self, ty: &Ty) -> Result<u64, Refused> {
        match (ty, self.is_valueless(ty)) {
            (Ty::Int(_) | Ty::Bool | Ty::Named(_), false) => Ok(self.layout(ty)?.size),
            _ => Err(Refused::new(format!("a pointer that steps over {ty:?}"))),
        }
    }

    pub fn place(&self, place: &Place, locals: &[Local]) -> Result<Ty, Refused> {
        let mut at = match &place.base {
            Base::Local(number) => match locals.get(*number) {
                Some(local) => local.ty.clone(),
                None => return Err(Refused::new(format!("a local that is not there: {number}"))),
            },
            Base::Value(value) => self.value(value, locals)?,
        };
        let mut steps = place.steps.iter();
        while let Some(step) = steps.next() {
            at = match step {
                Step::Deref(to) => dereferenced(&at, to)?,
                Step::Field(number) => self.field(&at, *number)?,
                // a variant is a step to one of its fields, of which the first is the tag
                Step::Variant(variant) => match steps.next() {
                    Some(Step::Field(0)) => Ty::Int(Width::W8),
                    Some(Step::Field(number)) => self.variant_field(&at, *variant, number - 1)?,
                    _ => return Err(Refused::new("a variant taken whole")),
                },
            };
        }
        Ok(at)
    }

    fn field(&self, of: &Ty, number: usize) -> Result<Ty, Refused> {
        let found = match of {
            Ty::Slice { mutable, of } => match number {
                0 => Some(Ty::Ref { mutable: *mutable, to: of.clone() }),
                1 => Some(Ty::Int(Width::W64)),
                _ => None,
            },
            Ty::Named(name) => match self.shape(name)? {
                Shape::Fields(fields) => fields.get(number).cloned(),
                Shape::Variants(_) => None,
            },
            _ => None,
        };
        found.ok_or_else(|| Refused::new(format!("no field {number} of {of:?}")))
    }

    fn variant_field(&self, of: &Ty, variant: usize, number: usize) -> Result<Ty, Refused> {
        let missing = || Refused::new(format!("no field {number} in variant {variant} of {of:?}"));
        let Ty::Named(name) = of else { return Err(missing()) };
        match self.shape(name)? {
            Shape::Variants(variants) => {
                variants.get(variant).and_then(|fields| fields.get(number)).cloned().ok_or_else(missing)
            }
            Shape::Fields(_) => Err(missing()),
        }
    }

    pub fn value(&self, value: &Expr, locals: &[Local]) -> Result<Ty, Refused> {
        match value {
            Expr::Copy(place) => self.place(place, locals),
            Expr::Int(width, _) => Ok(Ty::Int(*width)),
            Expr::Bool(_) => Ok(Ty::Bool),
            Expr::Unit => Ok(Ty::Unit),
            Expr::Binary(operation, left, right) => {
                self.binary(*operation, &self.value(left, locals)?, &self.value(right, locals)?)
            }
            Expr::Unary(operation, of) => unary(*operation, &self.value(of, locals)?),
            Expr::Address(place) => self.address(place, locals),
            Expr::Aggregate(ty, parts) => {
                self.aggregate(ty, parts, locals)?;
                Ok(ty.clone())
            }
            Expr::Repeat(of, count) => Ok(Ty::Array(Box::new(self.value(of, locals)?), *count)),
            Expr::Call(name, arguments) => self.call(name, arguments, locals),
        }
    }

    fn binary(&self, operation: Binary, left: &Ty, right: &Ty) -> Result<Ty, Refused> {
        if matches!(operation, Binary::Offset | Binary::Cut) {
            return match (left, right) {
                (Ty::Ref { mutable, to }, Ty::Int(Width::W64)) => {
                    Ok(Ty::Ref { mutable: *mutable, to: Box::new(element(to).clone()) })
                }
                _ => Err(Refused::new(format!("an offset of {left:?} by {right:?}"))),
            };
        }
        if operation.is_circuit() {
            return match (left, right) {
                (Ty::Bool, Ty::Bool) => Ok(Ty::Bool),
                _ => Err(Refused::new(format!("{operation:?} of {left:?} and {right:?}"))),
            };
        }
        let takes_bools = matches!(operation, Binary::Eq | Binary::Ne | Binary::And | Binary::Or | Binary::Xor);
        if left != right || !(matches!(left, Ty::Int(_)) || takes_bools && *left == Ty::Bool) {
            return Err(Refused::new(format!("{operation:?} of {left:?} and {right:?}")));
        }
        Ok(if operation.is_comparison() { Ty::Bool } else { left.clone() })
    }

    /// C has bounds for an array inside a struct, and a value local has no address in MIR: neither may be pointed to.
    fn address(&self, place: &Place, locals: &[Local]) -> Result<Ty, Refused> {
        let to = self.place(place, locals)?;
        // a part has the address of the whole that has one, and may do what that may
        let behind = place.steps.iter().rposition(|step| matches!(step, Step::Deref(_)));
        let is_part = place.steps.len() > behind.map_or(0, |at| at + 1);
        if is_part && !self.has_own_address(place, &to) {
            return Err(Refused::new("the address of a part of a struct"));
        }
        let mutable = match (&place.base, behind) {
            (_, Some(at)) => {
                let pointer = Place { base: place.base.clone(), steps: place.steps[..at].to_vec() };
                matches!(self.place(&pointer, locals)?, Ty::Ref { mutable: true, .. })
            }
            (Base::Local(number), None) if locals[*number].in_memory => true,
            (Base::Local(_), None) => return Err(Refused::new("the address of a value local")),
            _ => return Err(Refused::new("the address of a value")),
        };
        Ok(Ty::Ref { mutable, to: Box::new(to) })
    }

    /// Whether a part of a struct or of a variant may be pointed to: no array, no tag, and nothing of a slice.
    fn has_own_address(&self, place: &Place, to: &Ty) -> bool {
        let is_tag = matches!(place.steps[..], [.., Step::Variant(_), Step::Field(0)]);
        !is_tag && matches!(to, Ty::Int(_) | Ty::Bool | Ty::Named(_))
    }

    fn aggregate(&self, ty: &Ty, parts: &[Expr], locals: &[Local]) -> Result<(), Refused> {
        let wanted = match (ty, parts.first()) {
            (Ty::Array(of, count), _) if *count == parts.len() as u64 => vec![(**of).clone(); parts.len()],
            (Ty::Slice { mutable, of }, _) => {
                vec![Ty::Ref { mutable: *mutable, to: of.clone() }, Ty::Int(Width::W64)]
            }
            (Ty::Named(name), first) => match (self.shape(name)?, first) {
                (Shape::Fields(fields), _) => fields.clone(),
                (Shape::Variants(variants), Some(Expr::Int(Width::W8, tag))) => {
                    let variant = usize::try_from(*tag).ok().and_then(|tag| variants.get(tag));
                    let fields = variant.ok_or_else(|| Refused::new(format!("no variant {tag} of {name}")))?;
                    [&[Ty::Int(Width::W8)], &fields[..]].concat()
                }
                _ => return Err(Refused::new(format!("a value of {name} without its tag"))),
            },
            _ => return Err(Refused::new(format!("{ty:?} made of {} parts", parts.len()))),
        };
        if wanted.len() != parts.len() {
            return Err(Refused::new(format!("{ty:?} made of {} parts", parts.len())));
        }
        for (part, wanted) in parts.iter().zip(&wanted) {
            fits(&self.value(part, locals)?, wanted)?;
        }
        Ok(())
    }

    fn call(&self, name: &str, arguments: &[Expr], locals: &[Local]) -> Result<Ty, Refused> {
        let signature = self.signature(name)?;
        if arguments.len() != signature.params.len() {
            return Err(Refused::new(format!("{} arguments for {name}", arguments.len())));
        }
        for (argument, wanted) in arguments.iter().zip(&signature.params) {
            fits(&self.value(argument, locals)?, wanted)?;
        }
        Ok(signature.result.clone())
    }
}

fn unary(operation: Unary, of: &Ty) -> Result<Ty, Refused> {
    match (operation, of) {
        (Unary::Not, Ty::Int(_) | Ty::Bool) => Ok(of.clone()),
        (Unary::Cast(width), Ty::Int(_) | Ty::Bool) => Ok(Ty::Int(width)),
        (Unary::LeadingZeros | Unary::TrailingZeros, Ty::Int(Width::W64)) => Ok(Ty::Int(Width::W32)),
        _ => Err(Refused::new(format!("{operation:?} of {of:?}"))),
    }
}

/// What is stepped over: an array's elements, or the one thing that is pointed to.
pub fn element(to: &Ty) -> &Ty {
    match to {
        Ty::Array(of, _) => of,
        other => other,
    }
}

/// A pointer is followed to its own type alone, so byte order, padding and aliasing cannot be seen. One to an array is
/// followed to the array or to its first element.
fn dereferenced(pointer: &Ty, to: &Ty) -> Result<Ty, Refused> {
    match pointer {
        Ty::Ref { to: own, .. } if **own == *to || element(own) == to => Ok(to.clone()),
        Ty::Ref { to: own, .. } => Err(Refused::new(format!("a pointer to {own:?} followed to {to:?}"))),
        other => Err(Refused::new(format!("{other:?} followed as a pointer"))),
    }
}

/// Whether a value may be put where a type is wanted: it is of that type, or a pointer to the same elements that may do less.
pub fn fits(given: &Ty, wanted: &Ty) -> Result<(), Refused> {
    let fits = match (given, wanted) {
        (Ty::Ref { mutable, to }, Ty::Ref { mutable: wanted_mutable, to: wanted_to }) => {
            element(to) == element(wanted_to) && (*mutable || !wanted_mutable)
        }
        _ => given == wanted,
    };
    if fits {
        Ok(())
    } else {
        Err(Refused::new(format!("{given:?} where {wanted:?} is wanted")))
    }
}

/// Gives every raw pointer the type of what it is made of, and every aggregate that of the place it is put into.
pub fn settle(function: &mut Function, types: &Types) -> Result<(), Refused> {
    let mut body = std::mem::take(&mut function.body);
    let settled = settle_body(&mut body, &mut function.locals, types);
    function.body = body;
    settled?;
    match function.locals.iter().position(|local| local.ty == Ty::Ptr) {
        Some(number) => Err(Refused::new(format!("nothing tells what local {number} points to"))),
        None => Ok(()),
    }
}

fn settle_body(body: &mut [Statement], locals: &mut [Local], types: &Types) -> Result<(), Refused> {
    for statement in body {
        if let Statement::Assign(place, value) = statement {
            settle_pointer(place, value, locals, types)?;
            if let Expr::Aggregate(ty, _) = value {
                *ty = types.place(place, locals)?;
            }
        }
        for inner in statement.bodies_mut() {
            settle_body(inner, locals, types)?;
        }
    }
    Ok(())
}

fn settle_pointer(place: &Place, value: &Expr, locals: &mut [Local], types: &Types) -> Result<(), Refused> {
    let Some(number) = place.whole() else { return Ok(()) };
    if locals.get(number).is_some_and(|local| local.ty == Ty::Ptr) {
        locals[number].ty = match types.value(value, locals)? {
            Ty::Ref { mutable, to } => Ty::Ref { mutable, to: Box::new(element(&to).clone()) },
            other => return Err(Refused::new(format!("{other:?} as a pointer"))),
        };
    }
    Ok(())
}
