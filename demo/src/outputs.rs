//! The files that a run writes.

use std::fs;
use std::io;
use std::path::{Path, PathBuf};

use crate::args::Options;
use crate::error::Error;

/// The greatest number of links to follow to a file that doesn't exist.
const MOST_LINKS: usize = 40;

/// An output to a file.
struct Output<'a> {
    name: &'static str,
    path: &'a Path,
    place: Place,
}

/// A file, the same for each of its paths.
#[derive(Debug, PartialEq, Eq)]
enum Place {
    /// A file that exists, by its device and its number there.
    #[cfg(unix)]
    Node(u64, u64),
    /// Any other file, by its canonical path.
    Path(PathBuf),
}

/// Tests that no output overwrites the CSV file while it is read, and that no two outputs write to
/// one file.
///
/// # Errors
///
/// Returns an error that names the file if an output does.
pub fn check(options: &Options) -> Result<(), Error> {
    let (file, outputs) = (Place::of(&options.file), outputs(options));
    if let Some(over) = outputs.iter().find(|it| file.as_ref() == Some(&it.place)) {
        return Err(over.error("this is the CSV file, which would be written over"));
    }
    for (at, second) in outputs.iter().enumerate() {
        let mut before = outputs[..at].iter();
        if let Some(first) = before.find(|it| it.place == second.place) {
            let (one, other) = (first.name, second.name);
            return Err(first.error(format!("{one} and {other} both write to this file")));
        }
    }
    Ok(())
}

fn outputs(options: &Options) -> Vec<Output<'_>> {
    let named = [("--out", &options.out), ("--svg", &options.svg)].into_iter();
    let named = named.filter_map(|(name, path)| {
        let path = path.as_deref()?;
        let place = Place::of(path)?;
        Some(Output { name, path, place })
    });
    let printed = Place::printed().map(|place| {
        let name = "standard output";
        let path = Path::new(name);
        Output { name, path, place }
    });
    named.chain(printed).collect()
}

impl Output<'_> {
    fn error(&self, wrong: impl Into<String>) -> Error {
        Error::file(self.path, io::Error::other(wrong.into()))
    }
}

impl Place {
    /// Returns the place of a file that exists or can be created; None if its folder doesn't exist.
    fn of(path: &Path) -> Option<Place> {
        Place::existing(path).or_else(|| new(path, MOST_LINKS).map(Place::Path))
    }

    #[cfg(unix)]
    fn existing(path: &Path) -> Option<Place> {
        fs::metadata(path).ok().map(|file| Place::node(&file))
    }

    /// Returns the place of a file that exists. A file with two names has two places.
    #[cfg(not(unix))]
    fn existing(path: &Path) -> Option<Place> {
        fs::canonicalize(path).ok().map(Place::Path)
    }

    #[cfg(unix)]
    fn node(file: &fs::Metadata) -> Place {
        use std::os::unix::fs::MetadataExt;

        Place::Node(file.dev(), file.ino())
    }

    /// Returns the place of the file that standard output is redirected to; None if it is another
    /// thing, such as a terminal or a pipe.
    #[cfg(unix)]
    fn printed() -> Option<Place> {
        use std::os::fd::AsFd;

        let output = io::stdout().as_fd().try_clone_to_owned().ok()?;
        let file = fs::File::from(output).metadata().ok()?;
        file.is_file().then(|| Place::node(&file))
    }

    #[cfg(not(unix))]
    fn printed() -> Option<Place> {
        None
    }
}

/// Returns the canonical path of the file that a write to `path` would create; None if its folder
/// doesn't exist. There is no file at `path`, but there may be a link.
fn new(path: &Path, most_links: usize) -> Option<PathBuf> {
    let folder = fs::canonicalize(Path::new(".").join(path.parent()?)).ok()?;
    let path = folder.join(path.file_name()?);
    match fs::read_link(&path) {
        Ok(link) if most_links > 0 => new(&folder.join(link), most_links - 1),
        _ => Some(path),
    }
}
