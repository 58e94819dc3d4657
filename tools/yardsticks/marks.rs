//! A yardstick: reads all of standard input and counts the lines that begin with `@`.

use std::io::{self, Read};

fn main() -> io::Result<()> {
    let mut bytes = Vec::new();
    io::stdin().lock().read_to_end(&mut bytes)?;
    let marks = bytes
        .split(|byte| *byte == b'\n')
        .filter(|line| line.first() == Some(&b'@'))
        .count();
    println!("{marks}");
    Ok(())
}
