//! A library that is stopped by a signal, gives no answer in time or ends the program: what it was
//! called with is told before the tool ends. Only what a signal's handler may do is done for it:
//! numbers, and `write`.

use crate::tool::terminal::STANDARD_ERROR;
use std::os::raw::{c_int, c_void};
use std::os::unix::ffi::OsStrExt;
use std::path::Path;
use std::sync::atomic::{AtomicPtr, AtomicU64, AtomicUsize, Ordering};
use std::time::{Duration, Instant};

/// ILL, ABRT, BUS, FPE, SEGV.
const SIGNALS: [c_int; 5] = [4, 6, 7, 8, 11];
/// On the thread's own stack for signals, for the library may have used up the other one.
const ON_STACK: c_int = 0x0800_0000;

/// `struct sigaction` of 64-bit Linux.
#[repr(C)]
struct Action {
    handler: extern "C" fn(c_int),
    mask: [u64; 16],
    flags: c_int,
    restorer: usize,
}

extern "C" {
    fn sigaction(signal: c_int, action: *const Action, old: *mut c_void) -> c_int;
    fn write(file: c_int, bytes: *const c_void, count: usize) -> isize;
    fn _exit(status: c_int) -> !;
    fn atexit(work: extern "C" fn()) -> c_int;
}

/// Bytes that stay where they are while a library runs.
struct Lent {
    start: AtomicPtr<u8>,
    length: AtomicUsize,
}

impl Lent {
    const fn none() -> Lent {
        Lent {
            start: AtomicPtr::new(std::ptr::null_mut()),
            length: AtomicUsize::new(0),
        }
    }

    fn set(&self, bytes: &[u8]) {
        self.length.store(0, Ordering::SeqCst);
        self.start
            .store(bytes.as_ptr() as *mut u8, Ordering::SeqCst);
        self.length.store(bytes.len(), Ordering::SeqCst);
    }

    /// The bytes themselves, on standard error.
    fn say(&self) {
        let length = self.length.load(Ordering::SeqCst);
        let start = self.start.load(Ordering::SeqCst);
        if !start.is_null() {
            // SAFETY: a name that stays for ever.
            say_bytes(unsafe { std::slice::from_raw_parts(start, length) });
        }
    }

    /// Two digits a byte, on standard error.
    fn tell(&self, word: &str) {
        let length = self.length.load(Ordering::SeqCst);
        let start = self.start.load(Ordering::SeqCst);
        if start.is_null() {
            return;
        }
        say(word);
        for at in 0..length {
            // SAFETY: the bytes are lent for as long as the library runs, and it was stopped in it.
            let byte = unsafe { *start.add(at) };
            let digit = |four: u8| b"0123456789ABCDEF"[usize::from(four)];
            say_bytes(&[digit(byte >> 4), digit(byte & 15)]);
        }
        say("\n");
    }
}

/// The number of the call that is under way; 0 between calls.
static UNDER_WAY: AtomicU64 = AtomicU64::new(0);
static PATHS: [Lent; 2] = [Lent::none(), Lent::none()];
static LIBRARY: AtomicUsize = AtomicUsize::new(0);
/// The thread of a step, or the turns of a run.
static NUMBER: AtomicU64 = AtomicU64::new(0);
/// The lengths of the out buffers, the second one's with 1 more, and 0 where there is none.
static ROOM: AtomicUsize = AtomicUsize::new(0);
static SECOND: AtomicUsize = AtomicUsize::new(0);
static CALL: Lent = Lent::none();
static INPUT: Lent = Lent::none();

/// How often it is looked whether a call is still the same.
const LOOK: Duration = Duration::from_millis(50);

/// From now on each of these is told, of the libraries with these paths.
pub fn watch(paths: [&Path; 2], limit: u64) {
    for (lent, path) in PATHS.iter().zip(paths) {
        lent.set(Box::leak(path.as_os_str().as_bytes().into()));
    }
    watch_signals();
    // SAFETY: a function that stays for ever.
    unsafe { atexit(tell_end) };
    std::thread::spawn(move || watch_time(limit));
}

/// Ends the program if a call is under way for longer than that many seconds.
fn watch_time(limit: u64) {
    let (mut call, mut since) = (0, Instant::now());
    loop {
        std::thread::sleep(LOOK);
        let now = UNDER_WAY.load(Ordering::SeqCst);
        if now == 0 || now != call {
            (call, since) = (now, Instant::now());
        } else if since.elapsed() >= Duration::from_secs(limit) {
            say_library();
            say(" gave no answer within ");
            say_number(limit);
            say(" s");
            tell_call();
        }
    }
}

fn watch_signals() {
    for signal in SIGNALS {
        let action = Action {
            handler: tell,
            mask: [0; 16],
            flags: ON_STACK,
            restorer: 0,
        };
        // SAFETY: a whole action, whose handler does only what a handler may do.
        unsafe { sigaction(signal, &action, std::ptr::null_mut()) };
    }
}

/// The call that comes next, of both libraries: its name, the recipe or image, thread and room.
pub fn note_call(call: &'static str, input: &[u8], thread: u64, room: usize) {
    CALL.set(call.as_bytes());
    INPUT.set(input);
    NUMBER.store(thread, Ordering::SeqCst);
    ROOM.store(room, Ordering::SeqCst);
    SECOND.store(0, Ordering::SeqCst);
}

/// The same of a run: the recipe, the turns and the room of both buffers.
pub fn note_run(recipe: &[u8], turns: u16, rooms: [usize; 2]) {
    note_call("run", recipe, u64::from(turns), rooms[0]);
    SECOND.store(rooms[1] + 1, Ordering::SeqCst);
}

/// Which library is called now: 0 for A, 1 for B.
pub fn note_library(number: usize) {
    static CALLS: AtomicU64 = AtomicU64::new(0);
    LIBRARY.store(number, Ordering::SeqCst);
    let call = CALLS.fetch_add(1, Ordering::SeqCst) + 1;
    UNDER_WAY.store(call, Ordering::SeqCst);
}

/// Both have answered.
pub fn note_end() {
    UNDER_WAY.store(0, Ordering::SeqCst);
}

extern "C" fn tell(signal: c_int) {
    say_library();
    say(" was stopped by signal ");
    say_number(signal as u64);
    tell_call()
}

/// A library may end the program, which then would look as if all had gone well.
extern "C" fn tell_end() {
    if UNDER_WAY.load(Ordering::SeqCst) != 0 {
        say_library();
        say(" ended the program");
        tell_call()
    }
}

/// "recipe: B (other.so)"
fn say_library() {
    let library = LIBRARY.load(Ordering::SeqCst);
    say("recipe: ");
    say(if library == 0 { "A (" } else { "B (" });
    PATHS[library].say();
    say(")");
}

/// The call that is under way; then the program ends.
fn tell_call() -> ! {
    say(" in ");
    CALL.say();
    let second = SECOND.load(Ordering::SeqCst);
    say(if second == 0 { " (thread " } else { " (turns " });
    say_number(NUMBER.load(Ordering::SeqCst));
    say(", out buffer of ");
    say_number(ROOM.load(Ordering::SeqCst) as u64);
    if second != 0 {
        say(" and of ");
        say_number(second as u64 - 1);
    }
    say(" bytes)\n");
    INPUT.tell("given: ");
    // SAFETY: ends the program without more ado.
    unsafe { _exit(1) }
}

fn say(text: &str) {
    say_bytes(text.as_bytes());
}

fn say_bytes(bytes: &[u8]) {
    // SAFETY: the pointer and the length are those of a slice.
    unsafe { write(STANDARD_ERROR, bytes.as_ptr().cast(), bytes.len()) };
}

fn say_number(number: u64) {
    let mut digits = [0; 20];
    let mut rest = number;
    let mut first = digits.len();
    loop {
        first -= 1;
        digits[first] = b'0' + (rest % 10) as u8;
        rest /= 10;
        if rest == 0 {
            break;
        }
    }
    say_bytes(&digits[first..]);
}
