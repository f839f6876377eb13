//! Files, read and written whole. A file is written as its name ends, only over one of its own
//! kind, and to what is no plain file, as a pipe, as it stands.

use crate::drawing::{self, Kind};
use crate::{Fault, Result};
use std::fs::{self, File, Metadata, OpenOptions};
use std::io::{self, ErrorKind, Read, Write};
use std::os::fd::AsFd;
use std::os::unix::fs::{FileTypeExt, MetadataExt};
use std::path::{Path, PathBuf};

/// Most bytes of a file: a path of 10,001 points with every digit has a third of it.
const MOST_BYTES: u64 = 4 << 20;

/// The bytes of a file, or of standard input for `-`.
pub fn read(name: &str) -> Result<Vec<u8>> {
    if name.is_empty() {
        return Err(Fault::new("\"\" is no file's name: name one"));
    }
    let wrong = |error: io::Error| match error.kind() {
        ErrorKind::NotFound => {
            Fault::of(name, "there is no such file: look at its name and folder")
        }
        _ => Fault::of(name, spoken(&error)),
    };
    let mut bytes = Vec::new();
    if name == "-" {
        io::stdin().lock().take(MOST_BYTES + 1).read_to_end(&mut bytes).map_err(wrong)?;
    } else {
        let file = File::open(name).map_err(wrong)?;
        file.take(MOST_BYTES + 1).read_to_end(&mut bytes).map_err(wrong)?;
    }
    if bytes.len() as u64 > MOST_BYTES {
        let words = "has more than 4 MiB, and no outline or path has: look whether it is the one";
        return Err(Fault::of(name, words));
    }
    Ok(bytes)
}

/// What the system says, in words that tell what to do where they are known.
pub fn spoken(error: &io::Error) -> String {
    match error.kind() {
        ErrorKind::NotFound => "there is no such folder: make it, or name another".into(),
        ErrorKind::NotADirectory => "a part of its name is a file, and no folder: mend it".into(),
        ErrorKind::PermissionDenied => "may not be opened: ask for the right to it".into(),
        ErrorKind::IsADirectory => "is a folder: name a file in it".into(),
        ErrorKind::InvalidFilename => "is no name that a file can have: take a shorter one".into(),
        ErrorKind::BrokenPipe => "nobody reads it any more: run it again".into(),
        ErrorKind::StorageFull | ErrorKind::QuotaExceeded | ErrorKind::FileTooLarge => {
            "there is no room left: make some".into()
        }
        ErrorKind::ReadOnlyFilesystem => "nothing can be written there: name another place".into(),
        _ => error.to_string(),
    }
}

/// What a file is written as.
#[derive(Debug, Clone, Copy, PartialEq, Eq)]
pub enum Form {
    /// A picture.
    Picture,
    /// A page for a browser.
    Page,
    /// A drawing of this kind.
    Drawing(Kind),
    /// The points of a path.
    Path,
}

impl Form {
    /// What it is called, and how its name ends.
    fn called(self) -> (&'static str, &'static str) {
        match self {
            Self::Picture => ("a picture", "svg"),
            Self::Page => ("a report", "html"),
            Self::Drawing(kind) => (kind.called(), kind.ending()),
            Self::Path => ("a path", Kind::Text.ending()),
        }
    }

    /// Whether these bytes are of this form, so that they may be replaced.
    fn holds(self, bytes: &[u8]) -> bool {
        let begins = |words: &str| {
            let front = bytes.trim_ascii_start();
            front.len() >= words.len()
                && front[..words.len()].eq_ignore_ascii_case(words.as_bytes())
        };
        let has = |words: &str| bytes.windows(words.len()).any(|part| part == words.as_bytes());
        match self {
            _ if bytes.trim_ascii().is_empty() => true,
            Self::Picture => begins("<svg") || begins("<?xml") && has("<svg"),
            Self::Page => begins("<!doctype html") || begins("<html"),
            Self::Path => drawing::is_marked_path(bytes),
            Self::Drawing(kind) => {
                drawing::kind_of(bytes) == Some(kind) && !drawing::is_marked_path(bytes)
            }
        }
    }
}

/// Where a file is to be written.
#[derive(Debug, Clone, PartialEq, Eq)]
pub struct Out {
    name: String,
    form: Form,
    place: Place,
}

/// A place for a file.
#[derive(Debug, Clone, PartialEq, Eq)]
enum Place {
    /// A plain file, there already or not: where a link leads, if it is one.
    Plain(PathBuf),
    /// A pipe, a device, or a file that someone holds open: it is written to as it stands.
    Open(PathBuf),
}

impl Out {
    /// The place of this name for a file of this form: the name ends as the form asks for, and
    /// what is there already is of that form.
    pub fn of(name: &str, form: Form) -> Result<Self> {
        let place = place(name)?;
        let (called, ending) = form.called();
        if let Place::Plain(path) = &place {
            if !ends(name, ending) {
                let words = format!("{called} is called .{ending}, and this is not: name it so");
                return Err(Fault::of(name, words));
            }
            if path.exists() {
                writable(name, path)?;
                if !form.holds(&read(&path.to_string_lossy())?) {
                    let words = format!("is there already, and is not {called}: name another");
                    return Err(Fault::of(name, words));
                }
            }
        }
        Ok(Self { name: name.to_string(), form, place })
    }

    /// The place of this name for a drawing of the kind that the name ends in.
    pub fn drawing(name: &str) -> Result<Self> {
        place(name)?;
        match Kind::named(name) {
            Some(kind) => Self::of(name, Form::Drawing(kind)),
            None => {
                let words = "its end does not say what to write: it may be .book, .wkb, .wkt, .txt";
                Err(Fault::of(name, words))
            }
        }
    }

    /// Its name.
    pub fn name(&self) -> &str {
        &self.name
    }

    /// The kind of drawing that it is for, if it is for one.
    pub fn kind(&self) -> Option<Kind> {
        match self.form {
            Form::Drawing(kind) => Some(kind),
            _ => None,
        }
    }
}

/// That a file which is there may be written: a rename would not ask.
fn writable(name: &str, path: &Path) -> Result<()> {
    let wrong = |error: io::Error| Fault::of(name, spoken(&error));
    let file = OpenOptions::new().write(true).open(path).map_err(wrong)?;
    match file.metadata().map_err(wrong)?.permissions().readonly() {
        true => Err(Fault::of(name, "is there already, and is to be read only: name another")),
        false => Ok(()),
    }
}

/// Whether a name has this ending.
fn ends(name: &str, ending: &str) -> bool {
    name.rsplit_once('.').is_some_and(|(_, end)| end.eq_ignore_ascii_case(ending))
}

/// Where a file of this name is written.
fn place(name: &str) -> Result<Place> {
    const WORDS: &str = "standard output has the words: name a file to write to";
    if name == "-" {
        return Err(Fault::of(name, WORDS));
    }
    if name.is_empty() || name.ends_with('/') {
        return Err(Fault::new(format!("\"{name}\" is no file's name: name one to write to")));
    }
    match fs::metadata(name) {
        Ok(there) if there.is_dir() => Err(Fault::of(name, "is a folder: name a file in it")),
        Ok(there) if is_standard_output(&there) => Err(Fault::of(name, WORDS)),
        Ok(there) if !there.is_file() || is_held_open(name) => Ok(Place::Open(name.into())),
        Ok(_) => {
            let whole = fs::canonicalize(name).map_err(|error| Fault::of(name, spoken(&error)))?;
            Ok(Place::Plain(whole))
        }
        Err(_) if Path::new(name).is_symlink() => {
            Err(Fault::of(name, "is a link that leads nowhere: mend it, or name another"))
        }
        Err(_) => Ok(Place::Plain(name.into())),
    }
}

/// Whether this is the file or pipe that standard output goes to.
fn is_standard_output(there: &Metadata) -> bool {
    let own = io::stdout().as_fd().try_clone_to_owned().map(File::from);
    let Ok(own) = own.and_then(|own| own.metadata()) else { return false };
    let kind = own.file_type();
    (kind.is_file() || kind.is_fifo() || kind.is_socket())
        && (own.dev(), own.ino()) == (there.dev(), there.ino())
}

/// Whether a name is that of a file that is open already, as /dev/fd/3 is.
fn is_held_open(name: &str) -> bool {
    let mut path = PathBuf::from(name);
    // As many links as a system follows.
    for _ in 0..40 {
        let is_standard =
            ["/dev/stdin", "/dev/stdout", "/dev/stderr"].iter().any(|s| path == Path::new(s));
        let in_process =
            path.starts_with("/proc") && path.parent().is_some_and(|of| of.ends_with("fd"));
        if is_standard || in_process || path.starts_with("/dev/fd") {
            return true;
        }
        let Ok(to) = fs::read_link(&path) else { return false };
        path = path.parent().unwrap_or(Path::new("/")).join(to);
    }
    false
}

/// Writes files whole, all of them or none: each plain one is beside its place and synced
/// before the first is renamed, so that at its name there is always the old file or the new.
pub fn write_all(files: &[(Out, Vec<u8>)]) -> Result<()> {
    let process = std::process::id().to_string();
    let (mut beside, mut open) = (Vec::new(), Vec::new());
    for (out, bytes) in files {
        match &out.place {
            Place::Plain(place) => beside.push(Beside::of(&out.name, place, bytes, &process)?),
            Place::Open(place) => open.push((&out.name, place, bytes)),
        }
    }
    for (name, place, bytes) in open {
        let file = OpenOptions::new().append(true).open(place);
        file.and_then(|mut file| file.write_all(bytes)).map_err(|error| unwritten(name, &error))?;
    }
    beside.iter().try_for_each(Beside::renamed)
}

/// Writes a file whole.
pub fn write(out: &Out, bytes: &[u8]) -> Result<()> {
    write_all(&[(out.clone(), bytes.to_vec())])
}

/// Where a file that is kept from one call to the next is: a plain one, or none yet.
pub fn kept_at(name: &str) -> Result<PathBuf> {
    match place(name)? {
        Place::Plain(path) => Ok(path),
        Place::Open(_) => Err(Fault::of(name, "is no file that can be replaced: name another")),
    }
}

/// Writes a file whole that no other process writes at this time: what one that was killed
/// left beside it is replaced.
pub fn write_held(name: &str, bytes: &[u8]) -> Result<()> {
    Beside::of(name, &kept_at(name)?, bytes, "")?.renamed()
}

/// That a file was not written, and why.
fn unwritten(name: &str, error: &io::Error) -> Fault {
    Fault::of(name, format!("not written: {}", spoken(error)))
}

/// A file beside the place that it is for; where it is dropped before it got there, it is of
/// no use to anyone and goes.
struct Beside {
    name: String,
    place: PathBuf,
    file: PathBuf,
}

impl Beside {
    /// Writes the bytes beside the place, and waits until the disc has them.
    fn of(name: &str, place: &Path, bytes: &[u8], process: &str) -> Result<Self> {
        let dot = if process.is_empty() { "" } else { "." };
        let last = place.file_name().unwrap_or_default().to_string_lossy().into_owned();
        let file = place.with_file_name(format!(".{last}{dot}{process}.byr.new"));
        let beside = Self { name: name.to_string(), place: place.to_path_buf(), file };
        beside.written(bytes).map_err(|error| unwritten(name, &error))?;
        Ok(beside)
    }

    /// Writes the bytes, with the rights of the file that they are to replace.
    fn written(&self, bytes: &[u8]) -> io::Result<()> {
        let _ = fs::remove_file(&self.file);
        let mut file = OpenOptions::new().write(true).create_new(true).open(&self.file)?;
        file.write_all(bytes)?;
        if let Ok(old) = fs::metadata(&self.place) {
            file.set_permissions(old.permissions())?;
        }
        file.sync_all()
    }

    /// Puts the file at its place, and waits until the disc has the folder's new entry.
    fn renamed(&self) -> Result<()> {
        let folder = self.place.parent().filter(|folder| !folder.as_os_str().is_empty());
        fs::rename(&self.file, &self.place)
            .and_then(|()| File::open(folder.unwrap_or(Path::new(".")))?.sync_all())
            .map_err(|error| unwritten(&self.name, &error))
    }
}

impl Drop for Beside {
    fn drop(&mut self) {
        // Once it is renamed there is nothing of this name.
        let _ = fs::remove_file(&self.file);
    }
}

/// Whether two names are of one file, which need not be there yet.
pub fn same_file(a: &str, b: &str) -> bool {
    let whole = |name: &str| -> Option<PathBuf> {
        let path = Path::new(name);
        let folder = path.parent().filter(|folder| !folder.as_os_str().is_empty());
        let beside = || {
            Some(fs::canonicalize(folder.unwrap_or(Path::new("."))).ok()?.join(path.file_name()?))
        };
        fs::canonicalize(path).ok().or_else(beside)
    };
    a == b || matches!((whole(a), whole(b)), (Some(a), Some(b)) if a == b)
}
