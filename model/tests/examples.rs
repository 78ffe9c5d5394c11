//! The example files are what the generator writes, and their verdicts are what their names say.

use model::answers::{Implementation, Model, DONE, REFUSED, RULE};
use model::causes;
use model::examples::all;
use model::limits::MAX_IMAGE;
use model::profile::{Profile, PROFILES};
use model::tool::run::image_view::{ImageView, Vent};
use model::verdict::verdict;
use std::path::PathBuf;

fn folder() -> PathBuf {
    PathBuf::from(env!("CARGO_MANIFEST_DIR")).join("../examples")
}

#[test]
fn the_files_are_what_the_generator_writes() {
    for example in all() {
        let recipe = folder().join(format!("{}.recipe", example.name));
        let text = folder().join(format!("{}.md", example.name));
        assert_eq!(
            std::fs::read(recipe).ok(),
            Some(example.file()),
            "{}",
            example.name
        );
        assert_eq!(
            std::fs::read_to_string(text).ok(),
            Some(example.description()),
            "{}",
            example.name
        );
    }
}

#[test]
fn no_other_recipes_stand_there() {
    let examples = all();
    for found in std::fs::read_dir(folder()).expect("the folder is there") {
        let path = found.expect("a file").path();
        if path.extension().map_or(false, |kind| kind == "c") {
            continue; // the example host
        }
        let stem = path.file_stem().and_then(|s| s.to_str()).unwrap_or("");
        let known = examples.iter().any(|e| e.name == stem);
        assert!(known, "{}", path.display());
    }
}

#[test]
fn the_verdicts_are_as_the_names_say() {
    for example in all() {
        let refused = example.name.strip_prefix("refused-");
        let expected = refused.map_or(0, |number| number.parse().expect("a number"));
        assert_eq!(example.refusal(), expected, "{}", example.name);
        let checked = verdict(&example.file()).number();
        match example.profile {
            Profile::Common => assert_eq!(checked, expected, "{}", example.name),
            // in the common profile it may
            Profile::Separate => assert_eq!(checked, 0, "{}", example.name),
        }
    }
}

/// The vents after a run in the runner's order, the outcome and number of each of bay 0's turns in it, and
/// whether bay 0 lacks room at the end.
fn tenants_in(profile: Profile, recipe: &[u8]) -> (Vec<Vent>, Vec<(u32, u32)>, bool) {
    let mut image = vec![0; MAX_IMAGE];
    let loaded = Model.load_in(profile, recipe, &mut image);
    image.truncate(loaded.expect("the model loads").length as usize);
    let stepped = |image: &[u8], thread| {
        let mut out = vec![0; MAX_IMAGE];
        let answer = Model.step_in(profile, image, thread, &mut out);
        (answer.expect("the model steps"), out)
    };
    let mut turns = Vec::new();
    let (mut thread, mut idle) = (2, 0);
    while idle < 2 {
        let (answer, out) = stepped(&image, thread);
        if answer.outcome == RULE {
            image = out[..answer.length as usize].to_vec();
            idle = 0;
        } else {
            idle += 1;
        }
        if thread == 2 && answer.outcome != DONE {
            turns.push((answer.outcome, answer.number));
        }
        thread = 5 - thread;
    }
    let lacks = turns.last() == Some(&(REFUSED, causes::ROOM));
    (ImageView(&image).vents(2), turns, lacks)
}

/// As separate bays the calm tenant of `tenants` goes as beside a neighbour that does nothing; in the common
/// profile it lacks room.
#[test]
fn a_tenant_hurts_nobody_else() {
    let tenants = all().into_iter().find(|e| e.name == "tenants");
    let tenants = tenants.expect("an example of that name");
    let file = tenants.file();
    let (vents, turns, lacks) = tenants_in(Profile::Separate, &file);
    assert_eq!((vents[0], vents[1]), (Vent::Open(400), Vent::Open(0)));
    assert!(!lacks);
    let mut alone = tenants.recipe;
    alone.terms[1] = model::by_hand::unit();
    let (beside_nothing, the_same, _) = tenants_in(Profile::Separate, &alone.write());
    assert_eq!((vents[0], turns), (beside_nothing[0], the_same));
    let (vents, _, lacks) = tenants_in(Profile::Common, &file);
    assert_eq!((vents[0], vents[1]), (Vent::Open(200), Vent::Open(0)));
    assert!(lacks);
    for profile in PROFILES {
        let (vents, _, lacks) = tenants_in(profile, &alone.write());
        assert_eq!((vents[0], lacks), (Vent::Open(400), false));
    }
}
