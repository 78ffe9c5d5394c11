//! Document 01, "A run": an accepted recipe, its load, and a list of steps, watched for the claim.

use crate::causes;
use crate::config::{Component, Configuration};
use crate::context::{find, Found, Place};
use crate::expression::Expression;
use crate::image::read_image;
use crate::limits;
use crate::load::{load, Loaded};
use crate::rules::{CELL_NEW, HANDLE_BIND, HANDLE_NEW, THREAD_NEW};
use crate::step::{step, Outcome};
use crate::table::Table;
use crate::types::{handle_type, Type};
use crate::typing::{derive, Environment, Subject};
use crate::verdict::{read_recipe, setting_type};
use std::rc::Rc;

/// A run so far.
pub struct Run {
    table: Table,
    /// "A name's type is fixed when the name comes."
    types: Vec<Rc<Type>>,
    pub image: Vec<u8>,
    applied_handles: Vec<u8>,
    bound_futures: Vec<u8>,
}

impl Run {
    /// The run without steps; `None` for a recipe that is not accepted.
    pub fn start(file: &[u8]) -> Option<Run> {
        let mut out = vec![0; limits::MAX_IMAGE];
        let (bay_types, length) = match load(file, &mut out) {
            Loaded::Accepted(bay_types, length) => (bay_types, length),
            _ => return None,
        };
        let table = read_recipe(file).ok()?.table;
        let mut types = vec![setting_type(); bay_types.len()];
        types.extend(
            bay_types
                .iter()
                .filter_map(|number| table.get(*number).cloned()),
        );
        out.truncate(length);
        Some(Run {
            table,
            types,
            image: out,
            applied_handles: Vec::new(),
            bound_futures: Vec::new(),
        })
    }

    /// One more step; an error tells what of the claim it breaks.
    pub fn step(&mut self, thread: u64, out: &mut [u8]) -> Result<Outcome, String> {
        let before = read_image(&self.image).ok_or("the image broke its rules")?;
        let outcome = step(&self.image, thread, out);
        self.answer_is_allowed(&before, thread, out.len(), outcome)?;
        if let Outcome::Rule(rule, length) = outcome {
            self.image = out[..length].to_vec();
            self.note(&before, thread as usize, rule)?;
        }
        self.values_have_their_types()?;
        Ok(outcome)
    }

    /// 12 exactly for a short buffer, 14 exactly for no thread, and never 13, 16 or 17.
    fn answer_is_allowed(
        &self,
        before: &Configuration,
        thread: u64,
        room: usize,
        outcome: Outcome,
    ) -> Result<(), String> {
        let short = room < limits::MAX_IMAGE;
        let place = usize::try_from(thread).ok();
        let component = place.and_then(|place| before.components.get(place));
        let is_thread = matches!(component, Some(Component::Thread(_)));
        let allowed = match outcome {
            Outcome::Refused(causes::BUFFER) => short,
            Outcome::Refused(causes::NO_THREAD) => !short && !is_thread,
            Outcome::Refused(causes::ROOM) => !short && is_thread,
            Outcome::Refused(_) => false,
            _ => !short && is_thread,
        };
        allowed
            .then_some(())
            .ok_or_else(|| format!("the step of {thread} answered {outcome:?}"))
    }

    /// What a rule makes known: new names and their types, the handle applied, the future bound.
    fn note(&mut self, before: &Configuration, thread: usize, rule: u8) -> Result<(), String> {
        let expression = before.components[thread].expression();
        let function = match expression.map(find) {
            Some(Found::Place(_, Place::Meeting(function, _))) => function,
            Some(Found::Place(_, Place::Case(_))) => return Ok(()),
            _ => return Err("a rule without a place".to_owned()),
        };
        match (&*function, rule) {
            (Expression::Constant(_, number), THREAD_NEW | HANDLE_NEW | CELL_NEW) => {
                self.note_new_names(*number, rule)
            }
            (Expression::Name(z), HANDLE_BIND) => self.note_handle(before, *z),
            _ => Ok(()),
        }
    }

    /// "for a new name what the type of the constant just applied says"
    fn note_new_names(&mut self, number: u8, rule: u8) -> Result<(), String> {
        let whole = self.table.get(number).ok_or("a constant without a type")?;
        let (argument, result) = whole.function().ok_or("a constant of no function type")?;
        if rule != HANDLE_NEW {
            self.types.push(result.clone());
            return Ok(());
        }
        let (alpha, _) = argument.function().ok_or("a handle without a body")?;
        let handle = Rc::new(handle_type(alpha));
        self.types.push(alpha.clone());
        self.types.push(handle);
        Ok(())
    }

    /// "no handle is applied in two of its steps and no future is bound in two"
    fn note_handle(&mut self, before: &Configuration, z: u8) -> Result<(), String> {
        let y = match before.get(z) {
            Component::OpenHandle(y) => y,
            _ => return Err(format!("rule 5 on {z}, which is no open handle")),
        };
        if self.applied_handles.contains(&z) || self.bound_futures.contains(y) {
            return Err(format!("handle {z} or future {y} a second time"));
        }
        self.applied_handles.push(z);
        self.bound_futures.push(*y);
        Ok(())
    }

    /// "each cell and finished thread has a value of its type"
    pub fn values_have_their_types(&self) -> Result<(), String> {
        let now = read_image(&self.image).ok_or("the image broke its rules")?;
        if now.names() != self.types.len() {
            return Err("names came that no constant gave".to_owned());
        }
        for (name, component) in now.components.iter().enumerate() {
            if !self.has_its_type(&self.types[name], component) {
                return Err(format!("name {name} has no value of its type"));
            }
        }
        Ok(())
    }

    fn has_its_type(&self, given: &Rc<Type>, component: &Component) -> bool {
        match (component, &**given) {
            (Component::Cell(value), Type::Cell(contents)) => self.value_has(value, contents),
            (Component::Cell(_), _) => false,
            (Component::Thread(e), _) => !e.is_value() || self.value_has(e, given),
            _ => true,
        }
    }

    /// A derivation under the names that stand in the value; that a name of a once type stands in
    /// it once and under no many-lambda is what a derivation of Figs. 9 and 10 says.
    fn value_has(&self, value: &Expression, wanted: &Rc<Type>) -> bool {
        let names = (0..=u8::MAX).zip(&self.types);
        let standing = names.filter(|(y, _)| crate::typing::occurs(Subject::Name(*y), value));
        let gamma = standing.fold(Environment::default(), |gamma, (y, alpha)| {
            gamma.with(Subject::Name(y), alpha.clone())
        });
        derive(&self.table, &gamma, value).as_ref() == Some(wanted)
    }
}
