//! Reads every file of a folder as a drawing in well-known binary, prints its name
//! and what it holds, and writes each ring anew to a file of the same name in
//! another folder: `cargo run --example wkb -- FROM INTO`.

use byrlygent::wkb::{read_wkb, write_wkb};
use byrlygent::{Point, Refusal};
use std::error::Error;
use std::path::PathBuf;
use std::{env, fs};

fn main() -> Result<(), Box<dyn Error>> {
    let folders: Vec<PathBuf> = env::args_os().skip(1).map(PathBuf::from).collect();
    let [from, into] = folders.as_slice() else { return Err("two folders: FROM INTO".into()) };
    let mut names = Vec::new();
    for entry in fs::read_dir(from)? {
        names.push(entry?.file_name());
    }
    names.sort();
    for name in names {
        let said = match read_wkb(&fs::read(from.join(&name))?) {
            Ok(ring) => {
                fs::write(into.join(&name), write_wkb(&ring)?)?;
                format!("ring{}", bits(&ring))
            }
            Err(Refusal::Wkb { place, fault }) => format!("refused 10 {place}: {fault}"),
            Err(refusal) => return Err(refusal.into()),
        };
        println!("{} {said}", name.to_string_lossy());
    }
    Ok(())
}

/// The bits of the points in hexadecimal digits, a space before each number.
fn bits(points: &[Point]) -> String {
    let numbers = points.iter().flat_map(|point| [point.0, point.1]);
    numbers.map(|number| format!(" {:016x}", number.to_bits())).collect()
}
