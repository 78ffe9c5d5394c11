//! Figs. 8 and 10: linear types as trees, their multiplicities, and the types of the constants.

use std::rc::Rc;

/// κ ::= 1 | ω
#[derive(Debug, Clone, Copy, PartialEq, Eq, PartialOrd, Ord)]
pub enum Multiplicity {
    Once,
    Many,
}

/// α, β ::= unit | num | α ref | α →κ β | α ×κ β | α listκ, where num is document 01's second base
/// type.
///
/// `Rc` compares by address first, so that a comparison of shared trees stops early.
#[derive(Debug, Clone, PartialEq, Eq)]
pub enum Type {
    Unit,
    Num,
    Cell(Rc<Type>),
    Function(Multiplicity, Rc<Type>, Rc<Type>),
    Pair(Multiplicity, Rc<Type>, Rc<Type>),
    List(Multiplicity, Rc<Type>),
}

/// What a case takes apart.
#[derive(Debug, Clone, Copy, PartialEq, Eq)]
pub enum Shape {
    Pair,
    List,
}

/// The constants of Fig. 1 that carry a type in the file. (unit and num carry none.)
#[derive(Debug, Clone, Copy, PartialEq, Eq, PartialOrd, Ord)]
pub enum Constant {
    Cell,
    Exch,
    Thread,
    Handle,
}

impl Type {
    /// |α| of Fig. 8, κ for a pair or a list; num is treated like unit.
    pub fn multiplicity(&self) -> Multiplicity {
        match self {
            Type::Function(multiplicity, _, _)
            | Type::Pair(multiplicity, _, _)
            | Type::List(multiplicity, _) => *multiplicity,
            Type::Unit | Type::Num | Type::Cell(_) => Multiplicity::Many,
        }
    }

    pub fn is_many(&self) -> bool {
        self.multiplicity() == Multiplicity::Many
    }

    pub fn is_once(&self) -> bool {
        self.multiplicity() == Multiplicity::Once
    }

    /// The types of the two components of a pair, or of a list's front and its rest: the rest has
    /// the list's own type.
    pub fn components(self: &Rc<Type>, shape: Shape) -> Option<(Rc<Type>, Rc<Type>)> {
        match (shape, &**self) {
            (Shape::Pair, Type::Pair(_, alpha, beta)) => Some((alpha.clone(), beta.clone())),
            (Shape::List, Type::List(_, alpha)) => Some((alpha.clone(), self.clone())),
            _ => None,
        }
    }

    /// The parameter and the result of a function type.
    pub fn function(&self) -> Option<(&Rc<Type>, &Rc<Type>)> {
        match self {
            Type::Function(_, parameter, result) => Some((parameter, result)),
            _ => None,
        }
    }
}

/// "Typing of constants": whether `whole` is an instance of the constant's type in Fig. 8,
/// with document 01's type of handle.
pub fn is_instance(constant: Constant, whole: &Type) -> bool {
    let instance = match constant {
        Constant::Cell => is_cell_instance(whole),
        Constant::Exch => is_exch_instance(whole),
        Constant::Thread => is_thread_instance(whole),
        Constant::Handle => is_handle_instance(whole),
    };
    instance.is_some()
}

/// cell : α →κ (α ref), α of either multiplicity (document 02, T-02).
fn is_cell_instance(whole: &Type) -> Option<()> {
    let (alpha, result) = whole.function()?;
    let contents = match &**result {
        Type::Cell(contents) => contents,
        _ => return None,
    };
    (contents == alpha).then_some(())
}

/// exch : α ref →κ α →κ' α, α of either multiplicity (document 02, T-02).
fn is_exch_instance(whole: &Type) -> Option<()> {
    let (cell, rest) = whole.function()?;
    let alpha = match &**cell {
        Type::Cell(alpha) => alpha,
        _ => return None,
    };
    let (new, old) = rest.function()?;
    (new == alpha && old == alpha).then_some(())
}

/// thread : (α →κ α) →κ' α where |α| = ω.
fn is_thread_instance(whole: &Type) -> Option<()> {
    let (body, alpha) = whole.function()?;
    let (future, value) = body.function()?;
    (future == alpha && value == alpha && alpha.is_many()).then_some(())
}

/// handle : (a → ((a once to unit) → r)) → r where a is of multiplicity many (document 01).
fn is_handle_instance(whole: &Type) -> Option<()> {
    let (body, result) = whole.function()?;
    let (alpha, rest) = body.function()?;
    let (handle, end) = rest.function()?;
    (alpha.is_many() && **handle == handle_type(alpha) && end == result).then_some(())
}

/// The type of a handle: a once to unit.
pub fn handle_type(alpha: &Rc<Type>) -> Type {
    Type::Function(Multiplicity::Once, alpha.clone(), Rc::new(Type::Unit))
}
