//! The files that a call reads: each is opened once, whatever uses it, so that all that is said
//! is said of the same bytes.

use crate::drawing::{self, Drawing, Ring};
use crate::{files, plain, text, Fault, Result};
use std::collections::BTreeMap;
use std::path::Path;

/// The files that were read, by their names.
#[derive(Default)]
pub struct Shelf {
    files: BTreeMap<String, Vec<u8>>,
}

/// The name of a file, and the ring that is asked for behind a `#`; a file that has such
/// a name itself is taken whole.
fn asked(name: &str) -> Result<(&str, Option<usize>)> {
    let there = |file: &str| Path::new(file).exists();
    match name.rsplit_once('#') {
        Some((file, ring)) if !file.is_empty() && !there(name) => match ring.parse() {
            Ok(ring) => Ok((file, Some(ring))),
            Err(_) if file == "-" || there(file) => {
                let ring = text::shortened(ring);
                let words = format!("#{ring} is no ring: rings are counted, {file}#0 on");
                Err(Fault::of(file, words))
            }
            Err(_) => Ok((name, None)),
        },
        _ => Ok((name, None)),
    }
}

/// The file that a name is of, without the ring that is asked for.
pub fn file_of(name: &str) -> &str {
    asked(name).map_or(name, |(file, _)| file)
}

impl Shelf {
    /// The bytes of a file, or of standard input for `-`.
    fn bytes(&mut self, file: &str) -> Result<&[u8]> {
        if !self.files.contains_key(file) {
            self.files.insert(file.to_string(), files::read(file)?);
        }
        Ok(&self.files[file])
    }

    /// The rings of a file, or the one that `#N` behind its name asks for.
    pub fn drawing(&mut self, name: &str) -> Result<Drawing> {
        self.held(name, drawing::rings)
    }

    /// The same with the repeated points that the file has, for mending; of a text the closing
    /// one too.
    pub fn as_drawn(&mut self, name: &str) -> Result<Drawing> {
        self.held(name, drawing::rings_as_drawn)
    }

    /// The rings that a reader finds in a file.
    fn held(&mut self, name: &str, reader: drawing::Reader) -> Result<Drawing> {
        let (file, wanted) = asked(name)?;
        let read = reader(self.bytes(file)?);
        let (kind, rings) = read.map_err(|words| Fault::of(file, words))?;
        let all = rings.len();
        let mut rings: Vec<(usize, Ring)> = rings.into_iter().enumerate().collect();
        if let Some(wanted) = wanted {
            rings.retain(|(at, _)| *at == wanted);
            if rings.is_empty() {
                let has = plain::count(all, "ring", "rings");
                let words = format!("has {has}, from #0 on, and no ring #{wanted}");
                return Err(Fault::of(file, words));
            }
        }
        Ok(Drawing { name: name.to_string(), kind, rings })
    }

    /// The one ring of a file.
    pub fn ring(&mut self, name: &str) -> Result<Ring> {
        let mut drawing = self.drawing(name)?;
        if drawing.rings.len() > 1 {
            let last = drawing.rings.len() - 1;
            let words = format!("has {} rings: say which, {name}#0 to {name}#{last}", last + 1);
            return Err(Fault::of(name, words));
        }
        Ok(drawing.rings.remove(0).1)
    }

    /// The path in a file, opened where its first point stood once more at the end.
    pub fn path(&mut self, name: &str) -> Result<Ring> {
        let (file, wanted) = asked(name)?;
        if wanted.is_some() {
            return self.ring(name);
        }
        drawing::path(self.bytes(file)?).map_err(|words| Fault::of(file, words))
    }
}
