//! The listing program over standard input.

use std::io::{self, Read, Write};

fn main() -> io::Result<()> {
    let mut input = Vec::new();
    io::stdin().lock().take(peer::listing::MOST_INPUT as u64).read_to_end(&mut input)?;
    io::stdout().lock().write_all(peer::listing::listing(&input).as_bytes())
}
