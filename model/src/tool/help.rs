//! What the tool says about itself.

use crate::tool::problem::{Outcome, Problem};
use std::ffi::OsString;
use std::io::Write;

const GENERAL: &str = "\
recipe shows, writes, runs and compares recipes for bays, and prints the draws of the test load.

  recipe show FILE              a recipe file as text; why and where it is refused
  recipe write FILE.txt [OUT]   a text as a recipe file
  recipe run FILE               the recipe, turn by turn
  recipe draws FILE             the lines of the test load, one for each draw
  recipe compare A B            two shared libraries on the same recipes and turns
  recipe help [COMMAND]         this, or more about a command
  recipe --version              which tool this is, and whether the library is built in

FILE may be - for standard input. The exit status is 0 if all went well, 1 for a refusal, a
difference or a file that cannot be read or written, 2 for wrong usage.
";

const SHOW: &str = "\
recipe show FILE [--ascii] [--separate]

Prints the types, each bay's term and, in edition 3, what its setting starts with, in the form that
`recipe write` reads.
For a refused file it says the refusal, the place (part, path from the root, byte offset), what
was found there, and shows as much of the file as it can; the exit status is then 1.

  --ascii      \\ for λ, -1> for →1, -w> for →ω, *1 for ×1, *w for ×ω, listw for listω, => for ⇒
  --separate   judges it as separate bays: a bay that names another's setting is refused (20), then one
               that starts above its share (21)

  num ref        the type of a cell of num        unit, num, t5   types; t5 is entry 5
  num →1 unit    a function usable once           num →ω unit     one usable many times
  λx:num. e      a function usable many times     λ1 x:num. e     one usable once
  f a b          f applied to a, then to b        exch[t4]        a constant and its type
  setting3       the setting of bay 3             250             a num
  start 250      before a term: the bay's setting starts with 250, not 0
  num ×ω unit    a pair usable many times         num ×1 unit     one usable once
  num listω      a list usable many times         num list1       one usable once
  (a, b)[t5]     a pair and its type              (a :: b)[t6]    a list's first element and the rest
  case p of (x, y) ⇒ e    takes a pair apart      case l of x :: r ⇒ e    takes a list apart
";

const WRITE: &str = "\
recipe write FILE.txt [OUT] [--force] [--even-refused] [--separate]

Reads a text and writes the recipe file OUT; without OUT, the text's name with .recipe at the end;
- is standard output. An error is told as FILE:LINE:COLUMN. A recipe that would be refused is not
written, and no file is written over.

  --force          writes over a file
  --even-refused   writes also what would be refused
  --separate       judges it as separate bays, as `recipe show` does; the file is the same

The smallest text, and one that opens a vent to 25 percent (types that are used but not listed are
added by themselves):

  bay 0 = unit
  bay 0 = exch[num ref →ω num →ω num] setting0 250

A vent set by hand: its bay starts with 10 percent. A text with start is written as edition 3, and
one without as edition 1 or 2, the least that has all its types and terms:

  bay 0 = start 100 exch[num ref →ω num →ω num] setting0 250
";

const RUN: &str = "\
recipe run FILE [--separate] [--turns N] [--seed S | --order 1,2,..] [--svg OUT [--force]] [--progress]

Checks, loads and steps the recipe, and prints for each turn the thread, the bay that it belongs to,
its answer and the settings, up to 1000 in tenths of a percent; at the end why it stopped, how the
threads of each bay stand and for whose names they wait, and the vents.

  --separate      loads and steps as separate bays: each bay names its own setting only, and has its own
                  share of the names and nodes; at the end what each bay owns is told
  --turns N       at most N turns (1000)
  --seed S        threads by chance, the same for the same S
  --order 1,2,1   these threads, over and over
  --svg OUT       draws the vents and the threads of each bay over the turns into the file OUT
  --force         writes over OUT
  --progress      tells on standard error how far it is; on a terminal it does so anyway

Without --seed and --order the turns are those of the runner: the first thread that can go, going
round by number from the one after the last; those that are done, wait or lack room are passed over
and take no turn. Up to 65535 turns the runner itself is asked too, in one call, and its answer told;
not with --separate, for the runner knows no separate bays. The run stops when all turns are taken, or
when no thread can go: each is done or waits (idle), or one lacks room.
";

const DRAWS: &str = "\
recipe draws FILE --seed S --count N [--input]

Checks and loads the recipe, draws threads and steps them, and prints the lines of the program
test_load: for each draw the thread, then step and the rule, done and 0, waiting and the awaited name,
or refused and the refusal's number. For a refused recipe it prints the verdict line alone, and so for
a seed of zero (18), which is tried after the recipe; the exit status is then 1.

  --seed S    the seed, 0 to 4294967295
  --count N   so many draws, 0 to 65535; a number above 10000 counts as 10000
  --input     writes what the program is given, seed, number of draws and recipe, and no line

A draw replaces the seed by itself xor its left shift by 13, then xor its right shift by 17, then xor
its left shift by 5, in 32 bits. Modulo the number of threads, done or not, it picks a thread, counted
from 0. The program on the same input:

  recipe draws FILE --seed S --count N --input | test_load
";

const COMPARE: &str = "\
recipe compare A B [--seed S] [--count N] [--limit SECONDS] [--progress]

Opens two shared libraries that offer the C interface, gives both the same recipes, images and
turns, in the common profile and as separate bays, and compares every answer and every byte of the out
buffers; of a run by the runner the last image, for the rest is free. A function that a library does
not have is told and not compared. Says \"same\", or shows the first difference in full, with the
model's answer beside it; the exit status is then 1. So it is when a library is stopped, ends the
program or gives no answer in time; library and input are told.

  --seed S       other recipes (2006)
  --count N      so many recipes (20000), beside the examples
  --limit S      at most S seconds for each call (10)
  --progress     tells on standard error how far it is; on a terminal it does so anyway

A shared library from a static one:

  gcc -shared -Wl,--whole-archive libfikarehu.a -Wl,--no-whole-archive -o libfikarehu.so
";

const COMMANDS: [(&str, &str); 5] = [
    ("show", SHOW),
    ("write", WRITE),
    ("run", RUN),
    ("draws", DRAWS),
    ("compare", COMPARE),
];

fn text_of(command: &str) -> Option<&'static str> {
    let found = COMMANDS.iter().find(|(name, _)| *name == command);
    found.map(|(_, text)| *text)
}

pub fn command(words: &[OsString], out: &mut dyn Write) -> Outcome {
    let text = match words {
        [] => GENERAL,
        [word] => {
            let found = word.to_str().and_then(text_of);
            let none = format!("there is no command {}", word.to_string_lossy());
            found.ok_or_else(|| usage(&none))?
        }
        _ => return Err(usage("help takes one command")),
    };
    out.write_all(text.as_bytes())?;
    Ok(())
}

/// A wrong use of the tool.
pub fn usage(what: &str) -> Problem {
    Problem::Usage(format!("{what}\n{GENERAL}"))
}

/// A wrong use of a command: what is wrong, and the command's first line.
pub fn usage_of(command: &str, what: &str) -> Problem {
    let form = text_of(command).and_then(|text| text.lines().next());
    Problem::Usage(format!(
        "{what}\nusage: {}\nmore: recipe help {command}",
        form.unwrap_or_default()
    ))
}
