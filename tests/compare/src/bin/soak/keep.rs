//! A difference written down, so that it can be shown again.

use std::path::Path;
use std::{fs, io};

use crate::history::{Difference, Shown};

/// Writes what shows a difference into the folder; the commands that show it again.
pub fn keep(difference: &Difference, folder: &Path) -> io::Result<String> {
    let Difference {
        seed,
        why,
        shown_by,
    } = difference;
    let soak = format!("make soak SEED={seed}");
    let (name, bytes) = match shown_by {
        Shown::Log(history) => (
            format!("{seed}.log"),
            format!("# soak: seed {seed}: {why}\n{history}").into_bytes(),
        ),
        Shown::State(words) => (
            format!("{seed}.state"),
            words.iter().flat_map(|word| word.to_le_bytes()).collect(),
        ),
        Shown::Nothing => return Ok(soak),
    };
    fs::create_dir_all(folder)?;
    let file = folder.join(name);
    fs::write(&file, bytes)?;
    Ok(format!("tests/differ {}, or {soak}", file.display()))
}
