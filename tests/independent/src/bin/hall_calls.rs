//! Makes the calls of the engine's program `hall_calls`, from the same standard input, by the
//! independent implementation and prints the same lines.

use independent::model::hall::lines::printed;
use std::io;

fn main() -> io::Result<()> {
    print!("{}", printed(&io::read_to_string(io::stdin())?));
    Ok(())
}
