//! A first use, as README.md at the top of the repository has it: the model's family, and which
//! bytes hold each tensor.

use std::{fs::File, io::Read};

fn main() -> Result<(), Box<dyn std::error::Error>> {
    let path = std::env::args().nth(1).ok_or("which file?")?;
    let mut prefix = Vec::new();
    File::open(path)?.take(65536).read_to_end(&mut prefix)?;

    let header = strutpebble::read(&prefix)?;
    if let Some(family) = header.model_family() {
        println!("{}", String::from_utf8_lossy(family));
    }
    for (index, tensor) in header.tensors().enumerate() {
        println!("{} {:?}", String::from_utf8_lossy(tensor.name()), header.range_of(index)?);
    }
    Ok(())
}
