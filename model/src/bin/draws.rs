//! How long a draw of the test load takes: `TEST_LOAD=PROGRAM draws` measures that program against a
//! plain process around the library's step, on the same inputs in one run.

use model::curves::finish;
use model::examples::file_of;
use model::ffi::Library;
use model::houses;
use model::limits::MAX_DRAWS;
use model::plain;
use model::test_load::Input;
use model::timing::{median, time_of_processes};
use std::ffi::OsString;
use std::io::{self, Read, Write};
use std::process::{Command, ExitCode, Stdio};

/// How often each process is measured.
const ROUNDS: usize = 15;
const SEED: u32 = 1;

/// The word with which this program is the plain process.
const AS_PLAIN: &str = "plain";

/// The houses: what is in each, and its recipe.
fn all() -> [(&'static str, Vec<u8>); 6] {
    [
        ("nine bays, each soon done", file_of("nine-bays")),
        ("mutex, soon done", file_of("mutex")),
        ("recursion, one thread goes on", file_of("recursion")),
        ("256 names, 255 threads", houses::crowd().write()),
        ("256 names, one thread goes on", houses::all_names().write()),
        ("4,096 nodes, one thread goes on", houses::fullest().write()),
    ]
}

/// The plain process: it reads all, puts the lines into one buffer, and writes once.
fn be_plain() -> io::Result<()> {
    let mut bytes = Vec::new();
    io::stdin().lock().read_to_end(&mut bytes)?;
    let text = plain::printed(&Library, &bytes);
    io::stdout().lock().write_all(text.as_bytes())
}

/// A process to be measured.
struct Process {
    program: OsString,
    word: Option<&'static str>,
}

impl Process {
    /// What it prints for an input.
    fn printed(&self, input: &[u8], output: Stdio) -> io::Result<Vec<u8>> {
        let mut command = Command::new(&self.program);
        command.args(self.word);
        let mut child = command.stdin(Stdio::piped()).stdout(output).spawn()?;
        if let Some(mut pipe) = child.stdin.take() {
            pipe.write_all(input)?;
        }
        let ended = child.wait_with_output()?;
        match ended.status.success() {
            true => Ok(ended.stdout),
            false => Err(fault("a process fails")),
        }
    }

    /// Nanoseconds from its start to its end.
    fn time(&self, input: &[u8]) -> io::Result<f64> {
        let before = time_of_processes();
        self.printed(input, Stdio::null())?;
        Ok((time_of_processes() - before).as_secs_f64() * 1e9)
    }

    /// Nanoseconds a draw, without what it takes to start, to check and to load.
    fn time_of_draw(&self, [none, most]: &[Vec<u8>; 2]) -> io::Result<f64> {
        Ok((self.time(most)? - self.time(none)?) / f64::from(MAX_DRAWS))
    }
}

fn fault(text: &str) -> io::Error {
    io::Error::new(io::ErrorKind::Other, text)
}

/// The median of each process, measured in turn; their lines must be the same.
fn measured(processes: &[Process; 2], inputs: &[Vec<u8>; 2]) -> io::Result<[f64; 2]> {
    let [program, plain] = processes;
    let printed = |process: &Process| process.printed(&inputs[1], Stdio::piped());
    if printed(program)? != printed(plain)? {
        return Err(fault("the lines differ"));
    }
    let mut times = [Vec::new(), Vec::new()];
    for _ in 0..ROUNDS {
        times[0].push(program.time_of_draw(inputs)?);
        times[1].push(plain.time_of_draw(inputs)?);
    }
    Ok(times.map(median))
}

fn measure() -> io::Result<()> {
    let named = std::env::var_os("TEST_LOAD");
    let program = Process {
        program: named.ok_or_else(|| fault("use: TEST_LOAD=PROGRAM draws"))?,
        word: None,
    };
    let plain = Process {
        program: std::env::current_exe()?.into(),
        word: Some(AS_PLAIN),
    };
    let processes = [program, plain];
    println!("nanoseconds a draw: program, plain; program / plain; house");
    for (name, recipe) in all() {
        let inputs = [0, MAX_DRAWS].map(|count| {
            let input = Input {
                seed: SEED,
                count,
                recipe: &recipe,
            };
            input.bytes()
        });
        let [program, plain] = measured(&processes, &inputs)?;
        let ratio = program / plain;
        println!("{program:>9.0} {plain:>9.0} {ratio:>6.2}  {name}");
    }
    Ok(())
}

fn main() -> ExitCode {
    let done = match std::env::args().nth(1).as_deref() {
        Some(AS_PLAIN) => be_plain(),
        _ => measure(),
    };
    finish(done.map_err(|error| error.to_string()))
}
