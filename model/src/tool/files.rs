//! Files read whole, and files written without writing over another.

use crate::tool::problem::{message, Problem};
use std::fs::{File, OpenOptions};
use std::io::{self, Read, Write};
use std::path::Path;

/// More than any recipe has, in bytes or in text.
const MOST: u64 = 1 << 20;

/// The bytes of a file; `-` is standard input.
pub fn read(path: &Path) -> Result<Vec<u8>, Problem> {
    let cannot = |error: io::Error| message(format!("cannot read {}: {error}", path.display()));
    let mut bytes = Vec::new();
    if path == Path::new("-") {
        let input = io::stdin().lock();
        input
            .take(MOST + 1)
            .read_to_end(&mut bytes)
            .map_err(cannot)?;
    } else {
        let file = File::open(path).map_err(cannot)?;
        file.take(MOST + 1)
            .read_to_end(&mut bytes)
            .map_err(cannot)?;
    }
    if bytes.len() as u64 > MOST {
        let text = format!("{} is longer than {MOST} bytes", path.display());
        return Err(message(text));
    }
    Ok(bytes)
}

/// Says at once, before long work, that a file is there which may not be written over.
pub fn refuse_existing(path: &Path, force: bool) -> Result<(), Problem> {
    if path.exists() && !force {
        return Err(exists(path));
    }
    Ok(())
}

fn exists(path: &Path) -> Problem {
    let path = path.display();
    message(format!(
        "{path} exists and is not written over (--force would)"
    ))
}

/// The bytes as a new file, or with `force` in the place of one that was there. A file that was cut
/// short is taken away again.
pub fn write(path: &Path, force: bool, bytes: &[u8]) -> Result<(), Problem> {
    let cannot = |error: io::Error| match error.kind() {
        io::ErrorKind::AlreadyExists => exists(path),
        _ => message(format!("cannot write {}: {error}", path.display())),
    };
    let mut options = OpenOptions::new();
    options.write(true);
    if force {
        options.create(true).truncate(true);
    } else {
        options.create_new(true);
    }
    let mut file = options.open(path).map_err(cannot)?;
    file.write_all(bytes).map_err(|error| {
        let _ = std::fs::remove_file(path);
        cannot(error)
    })
}

/// Whether both paths lead to the same file.
pub fn same(one: &Path, other: &Path) -> bool {
    match (one.canonicalize(), other.canonicalize()) {
        (Ok(one), Ok(other)) => one == other,
        _ => false,
    }
}
