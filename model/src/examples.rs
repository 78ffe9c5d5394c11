//! The example recipes: each a file of bytes and a text that says what it does.

use crate::by_hand::*;
use crate::causes;
use crate::config::Configuration;
use crate::editions;
use crate::format::{hexadecimal, Recipe};
use crate::image::{read_image, write_image};
use crate::limits;
use crate::load::{load_in, Loaded};
use crate::nodes::Node;
use crate::profile::Profile;
use crate::step::{step_configuration_in, Stepped};
use crate::table::entry;
use crate::tool::judge;
use crate::tool::show::shown_in;
use crate::tool::text::spelling::UNICODE;
use crate::types::{Constant, Multiplicity, Shape};
use std::fmt::Write;

/// An example: its name, what it does, its recipe, and the profile that it is told in.
pub struct Example {
    pub name: &'static str,
    pub text: &'static str,
    pub recipe: Recipe,
    pub profile: Profile,
}

/// The number of the exch constant's type for the settings.
fn setting_exch(types: &mut Types) -> u8 {
    let rest = types.many(NUM, NUM);
    types.many(SETTING, rest)
}

/// exch (setting of the bay) value
fn set(exch: u8, bay: u8, value: u16) -> Term {
    set_to(exch, bay, num(value))
}

/// exch (setting of the bay) e
fn set_to(exch: u8, bay: u8, e: Term) -> Term {
    apply(apply(constant(Constant::Exch, exch), setting(bay)), e)
}

/// Every example, in the order of the folder's list.
pub fn all() -> Vec<Example> {
    let mut examples = vec![
        one_bay(),
        one_vent(),
        nine_bays(),
        dosing(),
        planting(),
        mutex(),
        kept_handle(),
        reading_with_hour(),
        queue(),
        handle_in_pair(),
        recursion(),
        waiting(),
        waiting_for_ever(),
        whose_job(),
        bound_to_itself(),
        tenants(),
    ];
    examples.extend(refused());
    examples
}

/// The file of the example of that name.
pub fn file_of(name: &str) -> Vec<u8> {
    let example = all().into_iter().find(|e| e.name == name);
    example.expect("an example of that name").file()
}

/// An example of the common profile.
fn example(name: &'static str, text: &'static str, recipe: Recipe) -> Example {
    Example {
        name,
        text,
        recipe,
        profile: Profile::Common,
    }
}

/// An example of the separate profile.
fn separate(name: &'static str, text: &'static str, recipe: Recipe) -> Example {
    Example {
        profile: Profile::Separate,
        ..example(name, text, recipe)
    }
}

fn one_bay() -> Example {
    let text = "Case A: the smallest recipe. One bay, whose thread is unit from the start.";
    example("one-bay", text, Types::new().recipe(vec![unit()]))
}

fn one_vent() -> Example {
    let text =
        "Case B: one step opens the vent of bay 0 to 25.0 percent; the thread then holds the \
                former opening.";
    let mut types = Types::new();
    let exch = setting_exch(&mut types);
    example("one-vent", text, types.recipe(vec![set(exch, 0, 250)]))
}

fn nine_bays() -> Example {
    let text = "Nine bays, each of which opens its own vent: bay 0 to 10.0 percent, bay 8 to 90.0 \
                percent.";
    let mut types = Types::new();
    let exch = setting_exch(&mut types);
    let terms = (0..9).map(|bay| set(exch, bay, 100 * (u16::from(bay) + 1)));
    let terms = terms.collect();
    example("nine-bays", text, types.recipe(terms))
}

fn dosing() -> Example {
    let text = "Carbon dioxide in the same num, document 02's T-01: bay 0 doses to 1200 parts per \
                million, bay 1 opens its vent to 25.0 percent. A num above 1000 is shown as it is.";
    let mut types = Types::new();
    let exch = setting_exch(&mut types);
    let terms = vec![set(exch, 0, 1_200), set(exch, 1, 250)];
    example("dosing", text, types.recipe(terms))
}

fn planting() -> Example {
    let text = "Vents set by hand at planting time, document 02's T-07: bay 0 starts at 10.0 percent, \
                each next bay 5.0 percent further open. Bays 0 to 2 stay so. Bays 3 to 5 open to 60.0, \
                65.0 and 70.0 percent, and are done with where they were. Bays 6 to 8 are aired: they \
                open to 90.0 percent and go back to where they were.";
    let mut types = Types::of(editions::THIRD);
    let exch = setting_exch(&mut types);
    let opened = |bay: u8| set(exch, bay, 450 + 50 * u16::from(bay));
    let aired = |bay| set_to(exch, bay, set(exch, bay, 900));
    let terms = (0..9).map(|bay| match bay {
        0..=2 => unit(),
        3..=5 => opened(bay),
        _ => aired(bay),
    });
    let mut recipe = types.recipe(terms.collect());
    recipe.starts = (0..9).map(|bay| 100 + 50 * bay).collect();
    example("planting", text, recipe)
}

fn mutex() -> Example {
    let text = "Mutual exclusion, section 5 of the paper. A cell holds the future of whoever came \
                last; who comes applies the former one's future and so waits until that one has \
                bound its handle. Two threads set the vent of bay 0 under the same mutex.";
    let mut types = Types::new();
    let exch_setting = setting_exch(&mut types);
    let pass = types.many(UNIT, UNIT);
    let region = types.many(UNIT, NUM);
    let whole_mutex = types.many(region, NUM);
    let made = mutex_term(&mut types, pass, whole_mutex);
    let under = |value| apply(variable(1), lambda(region, set(exch_setting, 0, value)));
    let spawned_body = types.many(NUM, NUM);
    let thread = types.many(spawned_body, NUM);
    let spawn = apply(
        constant(Constant::Thread, thread),
        lambda(spawned_body, under(250)),
    );
    let both = apply(lambda(spawned_body, under(500)), spawn);
    let with_mutex = types.many(whole_mutex, NUM);
    let cell_of_pass = types.cell(pass);
    let with_cell = types.many(cell_of_pass, NUM);
    let new_cell = types.many(pass, cell_of_pass);
    let first = apply(
        constant(Constant::Cell, new_cell),
        lambda(pass, variable(0)),
    );
    let body = apply(lambda(with_mutex, both), made);
    let term = apply(lambda(with_cell, body), first);
    example("mutex", text, types.recipe(vec![term]))
}

/// λa. handle (λx. λbind. (exch r x) unit; let v = a unit in bind (λy.y); v), r being variable 0
/// where it stands.
fn mutex_term(types: &mut Types, pass: u8, whole_mutex: u8) -> Term {
    let bind = types.once(pass, UNIT);
    let then = types.once(UNIT, NUM);
    let keep = types.many(UNIT, NUM);
    let with_value = types.once(NUM, NUM);
    let with_bind = types.many(bind, NUM);
    let with_future = types.many(pass, with_bind);
    let handle = types.many(with_future, NUM);
    let cell = types.cell(pass);
    let exchanged = types.many(pass, pass);
    let exch = types.many(cell, exchanged);
    // under r, a, x, bind: r is 3, a is 2, x is 1, bind is 0
    let former = apply(
        apply(constant(Constant::Exch, exch), variable(3)),
        variable(1),
    );
    let wait = apply(former, unit());
    // after the wait a is 3; with v bound too, bind is 2 and, one lambda further, v is 1
    let release = apply(variable(2), lambda(pass, variable(0)));
    let finish = apply(lambda(keep, variable(1)), release);
    let work = apply(lambda(with_value, finish), apply(variable(3), unit()));
    let body = apply(lambda(then, work), wait);
    let handled = lambda(with_future, lambda(with_bind, body));
    lambda(
        whole_mutex,
        apply(constant(Constant::Handle, handle), handled),
    )
}

/// The type of handle for a future of some type, where the body is of type unit, and those inside.
struct HandleTypes {
    future: u8,
    bind: u8,
    with_bind: u8,
    with_future: u8,
    handle: u8,
}

fn handle_types(types: &mut Types, future: u8) -> HandleTypes {
    let bind = types.once(future, UNIT);
    let with_bind = types.many(bind, UNIT);
    let with_future = types.many(future, with_bind);
    HandleTypes {
        future,
        bind,
        with_bind,
        with_future,
        handle: types.many(with_future, UNIT),
    }
}

/// handle (λx. λbind. body)
fn handled(t: &HandleTypes, body: Term) -> Term {
    let function = lambda(t.with_future, lambda(t.with_bind, body));
    apply(constant(Constant::Handle, t.handle), function)
}

/// λx. handle (λs. λbind. (exch putr bind) e), putr being variable 0 where it stands: of type
/// `put`, with exch of type `exch`. In e, x is variable 2 and s is variable 1.
fn put_term(t: &HandleTypes, put: u8, exch: u8, e: Term) -> Term {
    let putr = apply(constant(Constant::Exch, exch), variable(3));
    let former = apply(putr, variable(0));
    lambda(put, handled(t, apply(former, e)))
}

fn kept_handle() -> Example {
    let text = "A handle kept in a cell, document 02's T-02: the port of section 5 of the paper \
                without its stream. The vent of bay 0 takes the first reading, which is still to \
                come. Putting a reading takes the handle out of the cell, puts a new one in, and \
                binds the reading to the former one's future. Two readings are put; the vent opens \
                to 25.0 percent with the first.";
    let mut types = Types::new();
    let exch_setting = setting_exch(&mut types);
    let t = handle_types(&mut types, NUM);
    let cell = types.cell(t.bind);
    let new_cell = types.many(t.bind, cell);
    let exchanged = types.many(t.bind, t.bind);
    let exch = types.many(cell, exchanged);
    let put = types.many(t.future, UNIT);
    let then = types.many(UNIT, UNIT);
    let both = apply(
        lambda(then, apply(variable(1), num(400))),
        apply(variable(0), num(250)),
    );
    let with_put = types.many(put, UNIT);
    let with_cell = types.many(cell, UNIT);
    let putting = put_term(&t, put, exch, variable(2));
    let port = apply(lambda(with_put, both), putting);
    // under s, bind and the former setting: bind is 1
    let kept = apply(constant(Constant::Cell, new_cell), variable(1));
    let with_former = types.once(NUM, UNIT);
    let vent = apply(
        apply(constant(Constant::Exch, exch_setting), setting(0)),
        variable(1),
    );
    let all = apply(lambda(with_cell, port), kept);
    let term = handled(&t, apply(lambda(with_former, all), vent));
    example("kept-handle", text, types.recipe(vec![term]))
}

fn reading_with_hour() -> Example {
    let text =
        "A reading with its hour, document 02's T-03: a pair of nums. Bay 0 takes it apart, \
                opens its vent to the reading, 25.0 percent, and is done with the hour.";
    let mut types = Types::of(editions::SECOND);
    let exch = setting_exch(&mut types);
    let reading = types.pair(Multiplicity::Many, NUM, NUM);
    let with_former = types.many(NUM, NUM);
    // under the reading and its hour; the hour is 1 below the lambda
    let opened = set_to(exch, 0, variable(1));
    let body = apply(lambda(with_former, variable(1)), opened);
    let term = case(Shape::Pair, pair(reading, num(250), num(7)), body);
    example("reading-with-hour", text, types.recipe(vec![term]))
}

fn queue() -> Example {
    let text = "A queue of readings, the port of section 5 of the paper: a list that ends in a \
                future. Putting a reading takes the handle out of the cell, puts a new one in, and \
                binds the list's end to the reading and a new end. A thread takes the first two \
                readings from the list, waits while they are not there, and sets the vent of bay 0 \
                to each: to 25.0, then to 40.0 percent.";
    let mut types = Types::of(editions::SECOND);
    let exch_setting = setting_exch(&mut types);
    let list = types.list(NUM);
    let t = handle_types(&mut types, list);
    let cell = types.cell(t.bind);
    let new_cell = types.many(t.bind, cell);
    let exchanged = types.many(t.bind, t.bind);
    let exch = types.many(cell, exchanged);
    let put = types.many(NUM, UNIT);
    let then = types.many(UNIT, UNIT);
    let with_put = types.many(put, UNIT);
    let with_cell = types.many(cell, UNIT);
    // under the thread that takes: put is 1
    let both = apply(
        lambda(then, apply(variable(2), num(400))),
        apply(variable(1), num(250)),
    );
    let taken = apply(lambda(put, both), taking_thread(&mut types, exch_setting));
    let putting = put_term(&t, put, exch, front(list, variable(2), variable(1)));
    let port = apply(lambda(with_put, taken), putting);
    let kept = apply(constant(Constant::Cell, new_cell), variable(0));
    let term = handled(&t, apply(lambda(with_cell, port), kept));
    example("queue", text, types.recipe(vec![term]))
}

/// thread (λself. case s of x :: r ⇒ (λformer. case r of y :: q ⇒ exch setting0 y) (exch setting0 x)), s
/// being variable 3 where it stands.
fn taking_thread(types: &mut Types, exch_setting: u8) -> Term {
    let body = types.many(NUM, NUM);
    let thread = types.many(body, NUM);
    let second = case(
        Shape::List,
        variable(1),
        set_to(exch_setting, 0, variable(1)),
    );
    let first = apply(lambda(body, second), set_to(exch_setting, 0, variable(1)));
    let takes = case(Shape::List, variable(4), first);
    apply(constant(Constant::Thread, thread), lambda(body, takes))
}

fn handle_in_pair() -> Example {
    let text = "A once pair with a handle in it: it is usable once, for the handle is. The vent of \
                bay 0 takes a reading that is still to come; who takes the pair apart has the handle \
                and the reading, and binds it. The vent opens to 25.0 percent.";
    let mut types = Types::of(editions::SECOND);
    let exch_setting = setting_exch(&mut types);
    let t = handle_types(&mut types, NUM);
    let whole = types.pair(Multiplicity::Once, t.bind, NUM);
    let with_former = types.once(NUM, UNIT);
    // under s, bind and the former setting: bind is 1
    let made = pair(whole, variable(1), num(250));
    let bound = case(Shape::Pair, made, apply(variable(1), variable(0)));
    let vent = set_to(exch_setting, 0, variable(1));
    let term = handled(&t, apply(lambda(with_former, bound), vent));
    example("handle-in-pair", text, types.recipe(vec![term]))
}

fn recursion() -> Example {
    let text =
        "Recursion through thread, section 2.3 of the paper: a thread holds a function that \
                calls the thread's own future. Bay 0 calls it, and rules 3 and 1 follow each other \
                for ever.";
    let mut types = Types::new();
    let function = types.many(UNIT, UNIT);
    let body = types.many(function, function);
    let thread = types.many(body, function);
    let calls_itself = lambda(function, apply(variable(1), variable(0)));
    let made = apply(
        constant(Constant::Thread, thread),
        lambda(body, calls_itself),
    );
    example("recursion", text, types.recipe(vec![apply(made, unit())]))
}

fn waiting() -> Example {
    let text = "A thread that waits: the new thread applies a future that is not bound yet and \
                answers waiting, until bay 0 binds the future by its handle.";
    let mut types = Types::new();
    let function = types.many(UNIT, UNIT);
    let t = handle_types(&mut types, function);
    let spawned = types.many(UNIT, UNIT);
    let thread = types.many(spawned, UNIT);
    let then = types.once(UNIT, UNIT);
    let needs = lambda(spawned, apply(variable(2), unit()));
    let spawn = apply(constant(Constant::Thread, thread), needs);
    let bind = apply(variable(2), lambda(t.future, variable(0)));
    let pause = apply(lambda(t.future, variable(0)), unit());
    let later = apply(lambda(then, bind), pause);
    let term = handled(&t, apply(lambda(then, later), spawn));
    example("waiting", text, types.recipe(vec![term]))
}

fn waiting_for_ever() -> Example {
    let text =
        "A thread that waits for ever: it needs the future before it gets to the handle that \
                would bind it. That is no fault; every step of it answers waiting.";
    let mut types = Types::new();
    let function = types.many(UNIT, UNIT);
    let t = handle_types(&mut types, function);
    let then = types.once(UNIT, UNIT);
    let bind = apply(variable(1), lambda(t.future, variable(0)));
    let term = handled(&t, apply(lambda(then, bind), apply(variable(1), unit())));
    example("waiting-for-ever", text, types.recipe(vec![term]))
}

fn whose_job() -> Example {
    let text = "Whose job waits, document 02's T-08. Bay 1 promises a reading to the vents of bays 0 and 1: a job, \
                a thread of bay 1 that waits for a gate. It keeps the gate's handle in a cell, and nobody opens the \
                gate. Bay 2 promises itself a reading and opens its gate: its vent goes to 60.0 percent. Bay 0 has \
                nothing to do, and its vent awaits a job of bay 1.";
    let mut types = Types::new();
    let exch = setting_exch(&mut types);
    let pass = types.many(UNIT, UNIT);
    let t = handle_types(&mut types, pass);
    let cell = types.cell(t.bind);
    let new_cell = types.many(t.bind, cell);
    let with_cell = types.many(cell, UNIT);
    // under the job and the former openings of two vents, or of one: the gate's handle is 3, or 2
    let kept = apply(constant(Constant::Cell, new_cell), variable(3));
    let shut = apply(lambda(with_cell, unit()), kept);
    let opened = apply(variable(2), lambda(pass, variable(0)));
    let terms = vec![
        unit(),
        promise(&mut types, &t, exch, (&[0, 1], 400), shut),
        promise(&mut types, &t, exch, (&[2], 600), opened),
    ];
    example("whose-job", text, types.recipe(terms))
}

/// handle (λgate. λopen. (λ1 job. (λ1 former. .. then) (exch setting job)) (thread (λself. (λopened. num) (gate unit)))),
/// an exch for each of the bays.
fn promise(
    types: &mut Types,
    t: &HandleTypes,
    exch: u8,
    (bays, value): (&[u8], u16),
    then: Term,
) -> Term {
    let after_gate = types.many(UNIT, NUM);
    let body = types.many(NUM, NUM);
    let thread = types.many(body, NUM);
    let with_num = types.once(NUM, UNIT);
    let waits = apply(variable(2), unit());
    let job = lambda(body, apply(lambda(after_gate, num(value)), waits));
    let made = apply(constant(Constant::Thread, thread), job);
    let mut promised = then;
    for (formers, bay) in bays.iter().enumerate().rev() {
        let vent = set_to(exch, *bay, variable(formers as u8));
        promised = apply(lambda(with_num, promised), vent);
    }
    handled(t, apply(lambda(with_num, promised), made))
}

fn bound_to_itself() -> Example {
    let text =
        "Case C: a future bound to itself. It is bound; its thread is done and holds its own \
                name.";
    let mut types = Types::new();
    let t = handle_types(&mut types, NUM);
    let term = handled(&t, apply(variable(0), variable(1)));
    example("bound-to-itself", text, types.recipe(vec![term]))
}

fn tenants() -> Example {
    let text = "Separate bays, document 02's T-09: two tenants. The tenant of bay 0 opens the vent to 20.0 \
                percent, doubles a function eight times, which takes 1,540 nodes for a moment, and then \
                opens to 40.0 percent. The tenant of bay 1 doubles eleven times, and would then open to \
                90.0 percent. As separate bays (`recipe run --separate`) each bay has 2,048 nodes: bay 1 \
                lacks room at its ninth doubling, and bay 0 comes to 40.0 percent, as it does beside a \
                neighbour that does nothing. In the common profile bay 1 takes 3,092 of the 4,096 nodes of \
                both: then bay 0 lacks room too, and its vent stays at 20.0 percent.";
    let mut types = Types::new();
    let exch = setting_exch(&mut types);
    let function = types.many(UNIT, UNIT);
    let doubling = types.many(function, function);
    let last = types.many(function, NUM);
    let whole = types.many(doubling, NUM);
    let opened = types.many(NUM, NUM);
    let twice = apply(variable(1), apply(variable(1), variable(0)));
    let twice = lambda(doubling, lambda(function, twice));
    // the identity, doubled so many times, then the vent
    let growing = |times, vent| {
        let identity = lambda(function, variable(0));
        let doubled = (0..times).fold(identity, |f, _| apply(variable(0), f));
        let body = apply(lambda(last, vent), doubled);
        apply(lambda(whole, body), twice.clone())
    };
    let calm = growing(8, set(exch, 0, 400));
    let calm = apply(lambda(opened, calm), set(exch, 0, 200));
    let greedy = growing(11, set(exch, 1, 900));
    separate("tenants", text, types.recipe(vec![calm, greedy]))
}

/// One recipe for each refusal from 4 to 11, and one for each from 19 to 21.
fn refused() -> Vec<Example> {
    vec![
        refused_4(),
        refused_5(),
        refused_6(),
        refused_7(),
        refused_8(),
        refused_9(),
        refused_10(),
        refused_11(),
        refused_19(),
        refused_20(),
        refused_21(),
    ]
}

fn refused_4() -> Example {
    let text = "Refused 4: a type entry breaks its rule. Entries 2 and 3 are equal.";
    let mut recipe = Types::new().recipe(vec![unit()]);
    recipe.entries.push(entry(2, 1, 0));
    example("refused-4", text, recipe)
}

fn refused_5() -> Example {
    let text = "Refused 5: a part is not exactly one term. An application has no argument.";
    let cut = [vec![Node::Application], unit()].concat();
    example("refused-5", text, Types::new().recipe(vec![cut]))
}

fn refused_6() -> Example {
    let text = "Refused 6: nesting above the limit. The innermost variable stands at nesting 101.";
    let mut types = Types::new();
    let identity = types.many(UNIT, UNIT);
    let mut term = unit();
    for _ in 0..limits::MAX_NESTING - 1 {
        term = apply(lambda(identity, variable(0)), term);
    }
    example("refused-6", text, types.recipe(vec![term]))
}

fn refused_7() -> Example {
    let text = "Refused 7: a name not below b. A recipe of one bay names the setting of bay 1.";
    example("refused-7", text, Types::new().recipe(vec![setting(1)]))
}

fn refused_8() -> Example {
    let text =
        "Refused 8: a constant's type is no instance of Fig. 8. The future of the new thread \
                would be usable once.";
    let mut types = Types::new();
    let once = types.once(NUM, UNIT);
    let body = types.many(once, once);
    let whole = types.many(body, once);
    example(
        "refused-8",
        text,
        types.recipe(vec![constant(Constant::Thread, whole)]),
    )
}

fn refused_9() -> Example {
    let text = "Refused 9: application of a non-function. Unit is applied to unit.";
    example(
        "refused-9",
        text,
        Types::new().recipe(vec![apply(unit(), unit())]),
    )
}

fn refused_10() -> Example {
    let text = "Refused 10: a once-variable free under a many-lambda. The inner lambda could run \
                twice, and then the handle would be applied twice.";
    let mut types = Types::new();
    let once = types.once(NUM, UNIT);
    let inner = types.many(NUM, UNIT);
    let outer = types.many(once, inner);
    let body = lambda(inner, apply(variable(1), variable(0)));
    example("refused-10", text, types.recipe(vec![lambda(outer, body)]))
}

fn refused_11() -> Example {
    let text = "Refused 11: a bay's type has multiplicity once.";
    let mut types = Types::new();
    let once = types.once(NUM, UNIT);
    example("refused-11", text, types.recipe(vec![lambda(once, unit())]))
}

fn refused_19() -> Example {
    let text =
        "Refused 19: a starting part whose length is not twice the number of bays. There are two \
                bays, and the starting num of one.";
    let mut recipe = Types::of(editions::THIRD).recipe(vec![unit(), unit()]);
    recipe.starts = vec![250];
    example("refused-19", text, recipe)
}

fn refused_20() -> Example {
    let text =
        "Refused 20 as separate bays: a bay names another bay's setting. The tenant of bay 1 would open \
                the vent of bay 0. In the common profile it may.";
    let mut types = Types::new();
    let exch = setting_exch(&mut types);
    let terms = vec![set(exch, 0, 250), set(exch, 0, 900)];
    separate("refused-20", text, types.recipe(terms))
}

fn refused_21() -> Example {
    let text =
        "Refused 21 as separate bays: a bay starts above its share. Of 16 bays each has 256 nodes; bay 1 \
                has 256 in its term, and its setting is one more. With one node less it would start. In \
                the common profile it may.";
    let mut types = Types::new();
    let identity = types.many(UNIT, UNIT);
    let large = (0..85).fold(unit(), |term, _| apply(lambda(identity, variable(0)), term));
    let mut terms = vec![unit(); limits::MAX_BAYS];
    terms[1] = large;
    separate("refused-21", text, types.recipe(terms))
}

/// How many turns the text of an example follows.
const TURNS_TOLD: usize = 40;

impl Example {
    pub fn file(&self) -> Vec<u8> {
        self.recipe.write()
    }

    /// What the loader of the example's profile refuses it for, or 0.
    pub fn refusal(&self) -> u32 {
        match self.loaded() {
            Ok(_) => 0,
            Err(number) => number,
        }
    }

    /// The bays' types and the starting image.
    fn loaded(&self) -> Result<(Vec<u8>, Vec<u8>), u32> {
        let mut out = vec![0; limits::MAX_IMAGE];
        match load_in(self.profile, &self.file(), &mut out) {
            Loaded::Refused(number) => Err(number),
            Loaded::Accepted(types, length) => Ok((types, out[..length].to_vec())),
        }
    }

    /// The text beside the file: what it does, its types and terms, its verdict, how it runs.
    pub fn description(&self) -> String {
        let mut text = format!("# {}\n\n{}\n\n", self.name, self.text);
        text += &self.types_and_terms();
        text += &self.verdict_and_run();
        text
    }

    /// The pages name the proved library; where it is built in, the test `examples` asks it.
    fn types_and_terms(&self) -> String {
        let name = format!("{}.recipe", self.name);
        let shown = shown_in(self.profile, &name, &self.file(), &UNICODE);
        let shown = shown.replace(&format!(" by {}", judge::NAME), " by the proved library");
        let command = match self.profile {
            Profile::Common => "recipe show",
            Profile::Separate => "recipe show --separate",
        };
        format!("As `{command}` has it (docs/RECIPES.md):\n\n```\n{shown}```\n")
    }

    fn verdict_and_run(&self) -> String {
        let verdict = match self.profile {
            Profile::Common => "Verdict",
            Profile::Separate => "Verdict as separate bays",
        };
        let (types, image) = match self.loaded() {
            Err(number) => return format!("\n{verdict}: {number}.\n"),
            Ok(loaded) => loaded,
        };
        let types: Vec<String> = types.iter().map(u8::to_string).collect();
        let mut text = format!("\n{verdict}: 0, bay types {}.\n", types.join(", "));
        write!(
            text,
            "\nStarting image:\n\n```\n{}\n```\n",
            hexadecimal(&image)
        )
        .expect("a text");
        text += match self.profile {
            Profile::Common => "\nThe turns of the runner:\n\n",
            Profile::Separate => "\nThe turns in the runner's order, as separate bays:\n\n",
        };
        text + &told_run(self.profile, image)
    }
}

/// The turns in the runner's order, until no thread can go or enough are told.
fn told_run(profile: Profile, mut image: Vec<u8>) -> String {
    let mut text = String::new();
    let mut from = 0;
    let mut turns = 0;
    let end = loop {
        let now = read_image(&image).expect("the image of a run");
        if turns == TURNS_TOLD {
            break "And so on.".to_owned();
        }
        match first_that_goes(profile, &now, from) {
            Some((thread, rule, next)) => {
                writeln!(text, "- thread {thread}: rule {rule}").expect("a text takes more");
                (image, from) = (write_image(&next), thread + 1);
                turns += 1;
            }
            None => break standing(profile, &now),
        }
    };
    if turns == 0 {
        text += "None.\n";
    }
    let image = hexadecimal(&image);
    format!("{text}\n{end} The image is then:\n\n```\n{image}\n```\n")
}

/// The first thread that goes, round by number from there on; its rule, and what comes of it.
fn first_that_goes(
    profile: Profile,
    now: &Configuration,
    from: usize,
) -> Option<(usize, u8, Configuration)> {
    let mut round = (from..now.names()).chain(0..from);
    round.find_map(
        |name| match step_configuration_in(profile, now, name as u64) {
            Stepped::Rule(rule, next) => Some((name, rule, next)),
            _ => None,
        },
    )
}

/// Why no thread can go.
fn standing(profile: Profile, now: &Configuration) -> String {
    let stepped = |name| step_configuration_in(profile, now, name as u64);
    let told = (0..now.names()).filter_map(|name| match stepped(name) {
        Stepped::Done => Some(format!("thread {name} is done")),
        Stepped::Waiting(awaited) => {
            let [own, other] = [name, usize::from(awaited)].map(|name| now.owners[name]);
            let waits = format!("thread {name} of bay {own} waits");
            Some(format!("{waits} for name {awaited} of bay {other}"))
        }
        Stepped::Refused(causes::ROOM) => {
            let own = now.owners[name];
            Some(format!("thread {name} of bay {own} lacks room"))
        }
        _ => None,
    });
    let told: Vec<String> = told.collect();
    format!("No thread can go: {}.", told.join(", "))
}
