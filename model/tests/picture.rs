//! The picture of a run: no words on top of each other and none outside, for up to 16 bays. The same for the curves of `weights`.

use model::answers::{Implementation, Model};
use model::command::on_deep_stack;
use model::curves::picture::Panel;
use model::curves::{self, Curve, Point};
use model::draw::Draw;
use model::examples::file_of;
use model::generate::recipes;
use model::limits;
use model::profile::Profile;
use model::tool::run::history::History;
use model::tool::run::image_view::ImageView;
use model::tool::run::order::Order;
use model::tool::run::report::standings;
use model::tool::run::runner::{Answer, Ending, Runner};
use model::tool::svg::picture;
use model::tool::write::made;
use model::weights;

/// The history of a run, and the number of bays.
fn history(file: &[u8], turns: u64, mut order: Order) -> History {
    let mut image = vec![0; limits::MAX_IMAGE];
    let loaded = Model.load(file, &mut image).unwrap_or_default();
    image.truncate(loaded.length as usize);
    let bays = loaded.bays as usize;
    let mut runner = Runner::new(&Model, image);
    let mut history = History::start(bays, &runner.image);
    for _ in 0..turns {
        let turn = runner.turn(&mut order);
        history.note(&turn, &runner.image);
        if turn.taken.is_err() {
            break;
        }
    }
    history.finish();
    history
}

/// The place of some words: left, right, top, bottom.
#[derive(Debug)]
struct Words {
    text: String,
    sides: [f64; 4],
}

fn attribute<'t>(element: &'t str, name: &str) -> &'t str {
    let (_, rest) = element
        .split_once(&format!(" {name}=\""))
        .expect("an attribute");
    rest.split_once('"').expect("its end").0
}

fn number(element: &str, name: &str) -> f64 {
    attribute(element, name).parse().expect("a number")
}

fn words_of(line: &str) -> Option<Words> {
    let element = line.strip_prefix("<text")?;
    let text = element.split(['>', '<']).nth(1)?.to_owned();
    let size = number(element, "font-size");
    let width = 0.62 * size * text.chars().count() as f64;
    let (x, y) = (number(element, "x"), number(element, "y"));
    let left = match attribute(element, "text-anchor") {
        "start" => x,
        "middle" => x - width / 2.0,
        _ => x - width,
    };
    let sides = [left, left + width, y - 0.8 * size, y + 0.2 * size];
    Some(Words { text, sides })
}

fn overlap(a: &Words, b: &Words) -> bool {
    let ([left, right, top, bottom], other) = (a.sides, b.sides);
    left < other[1] && other[0] < right && top < other[3] && other[2] < bottom
}

fn check(history: &History) {
    check_words(&picture("a recipe's name", history));
}

fn check_words(svg: &str) {
    let (width, height) = (number(svg, "width"), number(svg, "height"));
    let words: Vec<Words> = svg.lines().filter_map(words_of).collect();
    assert!(words.len() > 10);
    for (at, one) in words.iter().enumerate() {
        let [left, right, top, bottom] = one.sides;
        let inside = left >= 0.0 && right <= width && top >= 0.0 && bottom <= height;
        assert!(inside, "{} stands outside", one.text);
        let other = words[..at].iter().find(|other| overlap(one, other));
        assert!(other.is_none(), "{one:?} stands on {other:?}");
    }
}

/// Sixteen bays, each of which opens its vent and the next one's; every third lets it be awaited.
fn sixteen_bays() -> Vec<u8> {
    let exch = "exch[num ref →ω num →ω num]";
    let bay = |k: usize| {
        let own = format!("{exch} setting{k} {}", 61 * k);
        let both = format!("(λx:num. {own}) ({exch} setting{} 1000)", (k + 1) % 16);
        let thread = format!("thread[(num →ω num) →ω num] (λy:num. {both})");
        let awaited = format!("{exch} setting{k} ({thread})");
        let term = if k % 3 == 0 { awaited } else { both };
        format!("bay {k} = {term}\n")
    };
    let text: String = (0..16).map(bay).collect();
    made(text.as_bytes(), false).expect("a recipe")
}

#[test]
fn sixteen_bays_and_their_words() {
    let file = sixteen_bays();
    for turns in [0, 1, 2, 5, 13, 40, 61, 200] {
        check(&history(&file, turns, Order::Runner(0)));
        check(&history(&file, turns, Order::random(turns)));
    }
}

#[test]
fn what_no_vent_can_be_is_a_plain_number_and_scales_the_picture() {
    let text = "bay 0 = exch[num ref →ω num →ω num] setting0 40000\n";
    let file = made(text.as_bytes(), false).expect("a recipe");
    let history = history(&file, 3, Order::Runner(0));
    check(&history);
    let svg = picture("carbon dioxide", &history);
    assert!(svg.contains(">bay 0: 40000<"));
    assert!(svg.contains(">setting<") && svg.contains(">20000<") && svg.contains(">40000<"));
    assert!(!svg.contains(" %<"));
}

/// The lines begin where the bays start.
#[test]
fn starting_nums_are_drawn_at_their_heights() {
    let text = "bay 0 = start 1000 unit bay 1 = start 500 unit bay 2 = start 0 unit";
    let file = made(text.as_bytes(), false).expect("a recipe");
    let history = history(&file, 3, Order::Runner(0));
    check(&history);
    let svg = picture("set by hand", &history);
    let heights: Vec<f64> = first_lines(&svg).iter().map(|line| line.0).collect();
    let halves = [heights[1] - heights[0], heights[2] - heights[1]];
    assert!(
        halves[0] > 100.0 && (halves[0] - halves[1]).abs() < 0.2,
        "{heights:?}"
    );
    assert!(svg.contains(">bay 0: 100.0 %<") && svg.contains(">bay 1: 50.0 %<"));
}

#[test]
fn generated_recipes_and_their_words() {
    on_deep_stack(|| {
        let mut draw = Draw::new(46);
        for _ in 0..300 {
            let file = recipes::well_typed(&mut draw).write();
            if Model.check(&file).refusal == 0 {
                let turns = draw.pick(&[3, 20, 60, 500]);
                let seed = draw.number();
                check(&history(&file, turns, Order::random(seed)));
            }
        }
    });
}

/// A long run does not make a long file.
#[test]
fn a_long_run_is_drawn_as_finely_as_can_be_seen() {
    let again = "bay 0 = (λf:unit →ω unit. f unit) (thread[((unit →ω unit) →ω unit →ω unit) →ω unit →ω unit] \
                 (λf:unit →ω unit. λx:unit. (λy:num. (λz:num. f unit) (exch[num ref →ω num →ω num] setting0 900)) \
                 (exch[num ref →ω num →ω num] setting0 100)))";
    let file = made(again.as_bytes(), false).expect("a recipe");
    let history = history(&file, 60_000, Order::Runner(0));
    assert_eq!(history.turns, 60_000);
    let svg = picture("for ever", &history);
    assert!(svg.len() < 300_000, "{} bytes", svg.len());
}

/// A loop that makes a cell each time, until there is no room.
#[test]
fn a_refusal_in_the_last_of_many_turns_is_seen() {
    let cells = "bay 0 = (λf:unit →ω unit. f unit) (thread[((unit →ω unit) →ω unit →ω unit) →ω unit →ω unit] \
                 (λf:unit →ω unit. λx:unit. (λy:num ref. f unit) (cell[num →ω num ref] 3)))";
    let file = made(cells.as_bytes(), false).expect("a recipe");
    let history = history(&file, 60_000, Order::Runner(0));
    assert!(history.turns > 500, "{} turns", history.turns);
    check(&history);
    let svg = picture("cells", &history);
    let mut bars = svg.lines().filter(|line| line.contains(" refused 15, "));
    let bar = bars.next().expect("a bar for the refusal");
    assert!(number(bar, "width") >= 6.0, "{bar}");
    assert!(svg.contains(">refused 15</text>"), "{svg}");
}

#[test]
fn each_threads_bay_and_the_rules_by_name() {
    let history = history(&sixteen_bays(), 40, Order::Runner(0));
    let svg = picture("sixteen", &history);
    for label in ["16, bay 0", "31, bay 15", "32, bay 0"] {
        assert!(svg.contains(&format!(">{label}</text>")), "{label}");
    }
    assert!(svg.contains("rules: 1 BETA · 2 THREAD.NEW · 3 FUTURE.DEREF"));
    assert!(svg.contains("7 CELL.EXCH · 8 PAIR.CASE · 9 LIST.CASE</text>"));
}

/// Two settings; thread 2 of bay 0 waits for name 4, a future of bay 1; thread 3 of bay 1 is done. Of no
/// recipe: there a thread waits for names of its own bay.
const ACROSS: [u8; 49] = [
    6, 0, 2, 0, 38, 0, 3, 0, 2, 1, 41, 0, 3, 0, 1, 0, 44, 0, 4, 0, 1, 1, 48, 0, 1, 0, 5, 1, 49, 0,
    0, 0, 3, 4, 49, 0, 0, 0, 4, 0, 0, 4, 0, 0, 2, 9, 4, 3, 3,
];

#[test]
fn a_wait_tells_whose_name_is_awaited_and_has_the_colour_of_its_bay() {
    let mut runner = Runner::new(&Model, ACROSS.to_vec());
    let mut history = History::start(2, &runner.image);
    let turn = runner.turn(&mut Order::Runner(0));
    assert_eq!(turn.taken, Err(Ending::Idle));
    history.note(&turn, &runner.image);
    history.finish();
    check(&history);
    let svg = picture("across", &history);
    assert!(svg.contains(">waits for 4 of bay 1</text>"), "{svg}");
    assert!(svg.contains("thread 2 waits for name 4 of bay 1, "));
    let colours: Vec<String> = first_lines(&svg).into_iter().map(|line| line.2).collect();
    let stripes = svg.lines().filter(|line| line.contains(" height=\"3.0\""));
    let stripes: Vec<&str> = stripes.map(|line| attribute(line, "fill")).collect();
    assert_eq!(stripes, [&colours[1]]);
    let answers: Vec<(u64, Answer)> = [2, 3].map(|t| (t, runner.answer(t))).to_vec();
    assert_eq!(
        standings(Profile::Common, &answers, ImageView(&runner.image)),
        "  bay 0   thread 2 waits for name 4, a future of bay 1\n  bay 1   thread 3 is done\n"
    );
}

/// The rows go by bays, and by numbers within a bay.
#[test]
fn the_threads_of_a_bay_stand_together() {
    let svg = picture(
        "whose job",
        &history(&file_of("whose-job"), 60, Order::Runner(0)),
    );
    let is_label = |words: &Words| words.text.contains(", bay ") && !words.text.contains("thread");
    let labels = svg.lines().filter_map(words_of).filter(is_label);
    let labels: Vec<String> = labels.map(|words| words.text).collect();
    let expected = [
        "3, bay 0",
        "4, bay 1",
        "10, bay 1",
        "5, bay 2",
        "8, bay 2",
        "11, bay 2",
    ];
    assert_eq!(labels, expected);
    assert!(svg.contains(">bay 0: awaits 10 of bay 1</text>"), "{svg}");
}

/// Every bay's line at the beginning: height, width and colour.
fn first_lines(svg: &str) -> Vec<(f64, f64, String)> {
    let lines = svg.lines().filter(|line| line.starts_with("<polyline"));
    let mut found: Vec<(f64, f64, String)> = Vec::new();
    for line in lines {
        let point = attribute(line, "points").split(' ').next();
        let (_, height) = point.and_then(|p| p.split_once(',')).expect("a point");
        let colour = attribute(line, "stroke").to_owned();
        if found.iter().all(|(_, _, other)| *other != colour) {
            let height = height.parse().expect("a number");
            found.push((height, number(line, "stroke-width"), colour));
        }
    }
    found
}

#[test]
fn equal_lines_stand_side_by_side_each_in_its_own_colour() {
    let bays: String = (0..16).map(|k| format!("bay {k} = unit\n")).collect();
    let file = made(bays.as_bytes(), false).expect("a recipe");
    let history = history(&file, 5, Order::Runner(0));
    check(&history);
    let lines = first_lines(&picture("closed", &history));
    assert_eq!(lines.len(), 16);
    for pair in lines.windows(2) {
        let apart = (pair[1].0 - pair[0].0).abs();
        assert!(apart >= pair[0].1 - 0.15, "{pair:?}");
    }
}

/// Times that grow with the size, so many times as long.
fn points(curve: &Curve, slowness: f64) -> Vec<Point> {
    let point = |&size: &usize| Point {
        size,
        library: slowness * size as f64,
        plain: slowness * size as f64 / 2.0,
    };
    curve.sizes.iter().map(point).collect()
}

#[test]
fn the_curves_of_weights_and_their_words() {
    let all = weights::all();
    for slowness in [0.0004, 0.003, 0.02, 0.9] {
        let panels = all.iter().map(|weighed| Panel {
            curve: &weighed.curve,
            now: points(&weighed.curve, slowness),
            before: Some(points(&weighed.curve, 1.5 * slowness)),
        });
        let panels: Vec<Panel> = panels.collect();
        let svg = curves::picture::picture(&panels, weights::CURVES);
        check_words(&svg);
        assert_eq!(svg.matches("<polyline").count(), 3 * all.len());
    }
}
