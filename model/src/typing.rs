//! Figs. 9 and 10, the rules for expressions, as a search for a derivation. The environment is split
//! wherever an expression has two parts; nothing is counted.

use crate::expression::{Case, Expression, Variable};
use crate::table::Table;
use crate::types::{is_instance, Multiplicity, Shape, Type};
use std::rc::Rc;

/// What an environment gives a type: a variable, or a name of the configuration.
#[derive(Debug, Clone, Copy, PartialEq, Eq)]
pub enum Subject {
    Variable(Variable),
    Name(u8),
}

/// Γ: x₁:α₁ … xₙ:αₙ
#[derive(Debug, Clone, Default)]
pub struct Environment {
    assumptions: Vec<(Subject, Rc<Type>)>,
}

impl Environment {
    /// Γ, x:α
    pub fn with(&self, subject: Subject, alpha: Rc<Type>) -> Environment {
        let mut extended = self.clone();
        extended.assumptions.push((subject, alpha));
        extended
    }

    /// once(Γ) = ∅
    fn once_is_empty(&self) -> bool {
        self.assumptions.iter().all(|(_, alpha)| alpha.is_many())
    }

    /// α and Γ, where this environment is Γ, x:α.
    fn take(&self, subject: Subject) -> Option<(Rc<Type>, Environment)> {
        let at = self.assumptions.iter().rposition(|(s, _)| *s == subject)?;
        let mut rest = self.clone();
        let (_, alpha) = rest.assumptions.remove(at);
        Some((alpha, rest))
    }

    /// Γ = Γ₁ · Γ₂: both have all the variables of multiplicity many; a once-variable goes to the
    /// side where it occurs (by Lemma 3 no other choice can succeed). `None` if it occurs in both.
    fn split(&self, e1: &Expression, e2: &Expression) -> Option<(Environment, Environment)> {
        let mut first = Environment::default();
        let mut second = Environment::default();
        for (subject, alpha) in &self.assumptions {
            let assumption = (*subject, alpha.clone());
            let both = alpha.is_many();
            let right = !both && occurs(*subject, e2);
            if right && occurs(*subject, e1) {
                return None;
            }
            if both || !right {
                first.assumptions.push(assumption.clone());
            }
            if both || right {
                second.assumptions.push(assumption);
            }
        }
        Some((first, second))
    }
}

/// x ∈ fv(e)
pub fn occurs(subject: Subject, e: &Expression) -> bool {
    match e {
        Expression::Variable(x) => Subject::Variable(*x) == subject,
        Expression::Name(y) => Subject::Name(*y) == subject,
        Expression::Lambda(_, x, body) => Subject::Variable(*x) != subject && occurs(subject, body),
        Expression::Application(e1, e2)
        | Expression::Pair(_, e1, e2)
        | Expression::Front(_, e1, e2) => occurs(subject, e1) || occurs(subject, e2),
        Expression::Case(case) => {
            let bound = [Subject::Variable(case.x), Subject::Variable(case.y)].contains(&subject);
            occurs(subject, &case.subject) || (!bound && occurs(subject, &case.body))
        }
        Expression::Unit | Expression::Num(_) | Expression::Constant(_, _) => false,
    }
}

/// The α with Γ ⊢ e : α, if there is a derivation. A lambda, a constant, a pair and a front have the
/// type that their type number names in the table.
pub fn derive(table: &Table, gamma: &Environment, e: &Expression) -> Option<Rc<Type>> {
    match e {
        Expression::Unit => constant(gamma, Rc::new(Type::Unit)),
        Expression::Num(_) => constant(gamma, Rc::new(Type::Num)),
        Expression::Constant(c, number) => {
            let whole = table.get(*number)?;
            is_instance(*c, whole).then_some(())?;
            constant(gamma, whole.clone())
        }
        Expression::Variable(x) => variable(gamma, Subject::Variable(*x)),
        Expression::Name(y) => variable(gamma, Subject::Name(*y)),
        Expression::Lambda(number, x, body) => {
            let whole = table.get(*number)?;
            abstraction(table, gamma, whole, *x, body)?;
            Some(whole.clone())
        }
        Expression::Application(e1, e2) => {
            let (gamma1, gamma2) = gamma.split(e1, e2)?;
            let function = derive(table, &gamma1, e1)?;
            let argument = derive(table, &gamma2, e2)?;
            let (alpha, beta) = function.function()?;
            (*alpha == argument).then(|| beta.clone())
        }
        Expression::Pair(number, e1, e2) => {
            let whole = table.get(*number)?;
            compound(table, gamma, Shape::Pair, whole, (e1, e2))
        }
        Expression::Front(number, e1, e2) => {
            let whole = table.get(*number)?;
            compound(table, gamma, Shape::List, whole, (e1, e2))
        }
        Expression::Case(case) => taken_apart(table, gamma, case),
    }
}

/// Γ₁ ⊢ e₁ : α and Γ₂ ⊢ e₂ : β give Γ₁ · Γ₂ ⊢ (e₁, e₂) : α ×κ β, and Γ₂ ⊢ e₂ : α listκ gives
/// Γ₁ · Γ₂ ⊢ e₁ :: e₂ : α listκ; κ is either, whatever the environments hold.
fn compound(
    table: &Table,
    gamma: &Environment,
    shape: Shape,
    whole: &Rc<Type>,
    (e1, e2): (&Expression, &Expression),
) -> Option<Rc<Type>> {
    let (alpha, beta) = whole.components(shape)?;
    let (gamma1, gamma2) = gamma.split(e1, e2)?;
    let first = derive(table, &gamma1, e1)?;
    let second = derive(table, &gamma2, e2)?;
    (first == alpha && second == beta).then(|| whole.clone())
}

/// Γ₁ ⊢ e₁ : α ×κ β and Γ₂, x:α, y:β ⊢ e₂ : γ give Γ₁ · Γ₂ ⊢ case e₁ of (x, y) ⇒ e₂ : γ; for a list
/// y is of the list's own type.
fn taken_apart(table: &Table, gamma: &Environment, case: &Case) -> Option<Rc<Type>> {
    let (gamma1, gamma2) = gamma.split(&case.subject, &case.body)?;
    let subject = derive(table, &gamma1, &case.subject)?;
    let (alpha, beta) = subject.components(case.shape)?;
    let inner = gamma2.with(Subject::Variable(case.x), alpha);
    let inner = inner.with(Subject::Variable(case.y), beta);
    derive(table, &inner, &case.body)
}

/// once(Γ) = ∅ gives Γ ⊢ c : TypeOf(c).
fn constant(gamma: &Environment, type_of: Rc<Type>) -> Option<Rc<Type>> {
    gamma.once_is_empty().then_some(type_of)
}

/// once(Γ) = ∅ gives Γ, x:α ⊢ x : α.
fn variable(gamma: &Environment, subject: Subject) -> Option<Rc<Type>> {
    let (alpha, rest) = gamma.take(subject)?;
    rest.once_is_empty().then_some(alpha)
}

/// Γ, x:α ⊢ e : β gives Γ ⊢ λx.e : α →1 β, and α →ω β where once(Γ) = ∅.
fn abstraction(
    table: &Table,
    gamma: &Environment,
    whole: &Type,
    x: Variable,
    body: &Expression,
) -> Option<()> {
    let (multiplicity, alpha, beta) = match whole {
        Type::Function(multiplicity, alpha, beta) => (multiplicity, alpha, beta),
        _ => return None,
    };
    if *multiplicity == Multiplicity::Many && !gamma.once_is_empty() {
        return None;
    }
    let inner = gamma.with(Subject::Variable(x), alpha.clone());
    let result = derive(table, &inner, body)?;
    (result == *beta).then_some(())
}
