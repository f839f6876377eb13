//! Slides a square round itself and prints where it goes, how many passes that
//! took and why they ended: `cargo run --example slide`.

use byrlygent::nfp_sliding::{compute_nfp_sliding, SlidingNfpConfig};

fn main() -> Result<(), byrlygent::Refusal> {
    let square = [[0.0, 0.0], [4.0, 0.0], [4.0, 4.0], [0.0, 4.0]];
    let nfp = compute_nfp_sliding(&square, &square, &SlidingNfpConfig::default())?;
    println!("{} passes, ended {}", nfp.passes, nfp.stop);
    for (x, y) in &nfp.polygons[0] {
        println!("{x} {y}");
    }
    Ok(())
}
