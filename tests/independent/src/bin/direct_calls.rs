//! Makes the calls of the engine's program `direct_calls`, from the same standard input, by the
//! independent implementation and prints the same lines.

use independent::model::direct::printed;
use std::io;

fn main() -> io::Result<()> {
    print!("{}", printed(&io::read_to_string(io::stdin())?));
    Ok(())
}
