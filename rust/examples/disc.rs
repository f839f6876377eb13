//! Makes a disc of 256 vertices, puts it into a book beside a carrier, takes both out
//! of the book again and traces the disc round the carrier:
//! `cargo run --release --example disc`.

use byrlygent::discs::make_disc;
use byrlygent::nfp_sliding::{compute_nfp_sliding, SlidingNfpConfig};
use byrlygent::outline_book::{read_book, write_book};

/// A carrier 40 wide and 35 high, with a gable.
const CARRIER: [(f64, f64); 5] = [(0.0, 0.0), (40.0, 0.0), (40.0, 20.0), (20.0, 35.0), (0.0, 20.0)];

fn main() -> Result<(), byrlygent::Refusal> {
    let disc = make_disc((0.0, 0.0), 8.0, 64)?;
    println!("a disc of {} vertices, the second at {:?}", disc.len(), disc[1]);
    let book = write_book(&[(1, &CARRIER[..]), (2, &disc)])?;
    println!("a book of {} bytes", book.len());
    let outlines = read_book(&book)?;
    let limited = SlidingNfpConfig { max_iterations: 400, ..SlidingNfpConfig::default() };
    let nfp = compute_nfp_sliding(&outlines[0].1, &outlines[1].1, &limited)?;
    let path = &nfp.polygons[0];
    println!("{} passes, ended {}", nfp.passes, nfp.stop);
    println!("a path of {} points, from {:?} to {:?}", path.len(), path[0], path[path.len() - 1]);
    Ok(())
}
