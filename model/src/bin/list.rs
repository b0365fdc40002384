//! The model's list program: the text that the lists of standard input's mesh, map and stencil have.

use std::io::{self, Read};

use jemlayos_model::listing::{text, LONGEST_INPUT};

fn main() -> io::Result<()> {
    let mut input = Vec::new();
    io::stdin().take(LONGEST_INPUT as u64 + 1).read_to_end(&mut input)?;
    print!("{}", text(&input));
    Ok(())
}
