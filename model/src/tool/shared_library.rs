//! A shared library that offers the C interface of `include/fikarehu.h`, opened while running.

use crate::answers::{Implementation, LoadedAnswer, RanAnswer, SteppedAnswer, VerdictAnswer};
use crate::tool::problem::{message, Problem};
use std::ffi::{CStr, CString};
use std::os::raw::{c_char, c_int, c_void};
use std::os::unix::ffi::OsStrExt;
use std::path::Path;

type Check = unsafe extern "C" fn(*const u8, usize) -> VerdictAnswer;
type Load = unsafe extern "C" fn(*const u8, usize, *mut u8, usize) -> LoadedAnswer;
type Step = unsafe extern "C" fn(*const u8, usize, u64, *mut u8, usize) -> SteppedAnswer;
type Run = unsafe extern "C" fn(*const u8, usize, u16, *mut u8, usize, *mut u8, usize) -> RanAnswer;

extern "C" {
    fn dlopen(file: *const c_char, flags: c_int) -> *mut c_void;
    fn dlsym(library: *mut c_void, name: *const c_char) -> *mut c_void;
    fn dlerror() -> *const c_char;
}

const LOAD: &str = "fikarehu_load";
const STEP: &str = "fikarehu_step";
const RUN: &str = "fikarehu_run";
const LOAD_SEPARATE: &str = "fikarehu_load_separate";
const STEP_SEPARATE: &str = "fikarehu_step_separate";

/// Every name looked up at once, and none lent to other libraries.
const NOW_AND_LOCAL: c_int = 2;

/// An open library. It stays open until the program ends.
pub struct SharedLibrary {
    check: Check,
    load: Option<Load>,
    step: Option<Step>,
    run: Option<Run>,
    load_separate: Option<Load>,
    step_separate: Option<Step>,
}

impl SharedLibrary {
    pub fn open(path: &Path) -> Result<SharedLibrary, Problem> {
        let cannot = |why: String| message(format!("cannot open {}: {why}", path.display()));
        let whole = path.canonicalize().map_err(|e| cannot(e.to_string()))?;
        let name = CString::new(whole.as_os_str().as_bytes());
        let name = name.map_err(|e| cannot(e.to_string()))?;
        // SAFETY: a text that ends with a zero; the library's own start is trusted, as it will be run.
        let library = unsafe { dlopen(name.as_ptr(), NOW_AND_LOCAL) };
        if library.is_null() {
            return Err(cannot(last_error()));
        }
        let check = symbol(library, "fikarehu_check");
        let check = check.ok_or_else(|| cannot("it has no fikarehu_check".to_owned()))?;
        // SAFETY: functions of these names have these types, as the header declares them.
        unsafe {
            let load = |name| {
                let found = symbol(library, name);
                found.map(|found| std::mem::transmute::<*mut c_void, Load>(found))
            };
            let step = |name| {
                let found = symbol(library, name);
                found.map(|found| std::mem::transmute::<*mut c_void, Step>(found))
            };
            Ok(SharedLibrary {
                check: std::mem::transmute::<*mut c_void, Check>(check),
                load: load(LOAD),
                step: step(STEP),
                run: symbol(library, RUN)
                    .map(|found| std::mem::transmute::<*mut c_void, Run>(found)),
                load_separate: load(LOAD_SEPARATE),
                step_separate: step(STEP_SEPARATE),
            })
        }
    }

    /// The functions beside the check that it does not have.
    pub fn missing(&self) -> Vec<&'static str> {
        let all = [
            (LOAD, self.load.is_some()),
            (STEP, self.step.is_some()),
            (RUN, self.run.is_some()),
            (LOAD_SEPARATE, self.load_separate.is_some()),
            (STEP_SEPARATE, self.step_separate.is_some()),
        ];
        let missing = all.iter().filter(|(_, has)| !has);
        missing.map(|(name, _)| *name).collect()
    }
}

/// The address of a name in the library.
fn symbol(library: *mut c_void, name: &str) -> Option<*mut c_void> {
    let name = CString::new(name).ok()?;
    // SAFETY: an open library and a text that ends with a zero.
    let found = unsafe { dlsym(library, name.as_ptr()) };
    (!found.is_null()).then_some(found)
}

fn last_error() -> String {
    // SAFETY: the text, if there is one, stays until the next call, and is copied before.
    unsafe {
        let text = dlerror();
        if text.is_null() {
            return "no reason is given".to_owned();
        }
        CStr::from_ptr(text).to_string_lossy().into_owned()
    }
}

fn call_load(load: Load, recipe: &[u8], out: &mut [u8]) -> LoadedAnswer {
    // SAFETY: two slices that are lent meanwhile, the second alone.
    unsafe { load(recipe.as_ptr(), recipe.len(), out.as_mut_ptr(), out.len()) }
}

fn call_step(step: Step, image: &[u8], thread: u64, out: &mut [u8]) -> SteppedAnswer {
    let room = out.len();
    // SAFETY: two slices that are lent meanwhile, the second alone.
    unsafe { step(image.as_ptr(), image.len(), thread, out.as_mut_ptr(), room) }
}

impl Implementation for SharedLibrary {
    fn check(&self, recipe: &[u8]) -> VerdictAnswer {
        // SAFETY: the pointer and the length are those of a slice that is lent meanwhile.
        unsafe { (self.check)(recipe.as_ptr(), recipe.len()) }
    }

    fn load(&self, recipe: &[u8], out: &mut [u8]) -> Option<LoadedAnswer> {
        Some(call_load(self.load?, recipe, out))
    }

    fn step(&self, image: &[u8], thread: u64, out: &mut [u8]) -> Option<SteppedAnswer> {
        Some(call_step(self.step?, image, thread, out))
    }

    fn load_separate(&self, recipe: &[u8], out: &mut [u8]) -> Option<LoadedAnswer> {
        Some(call_load(self.load_separate?, recipe, out))
    }

    fn step_separate(&self, image: &[u8], thread: u64, out: &mut [u8]) -> Option<SteppedAnswer> {
        Some(call_step(self.step_separate?, image, thread, out))
    }

    fn run(
        &self,
        recipe: &[u8],
        turns: u16,
        first: &mut [u8],
        second: &mut [u8],
    ) -> Option<RanAnswer> {
        let run = self.run?;
        let (start, rooms) = (recipe.as_ptr(), [first.len(), second.len()]);
        let (first, second) = (first.as_mut_ptr(), second.as_mut_ptr());
        // SAFETY: three slices that are lent meanwhile, the buffers each alone.
        Some(unsafe {
            run(
                start,
                recipe.len(),
                turns,
                first,
                rooms[0],
                second,
                rooms[1],
            )
        })
    }
}
