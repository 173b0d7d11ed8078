//! Reads records on standard input and prints the lines of document 01's
//! "Program".

use std::io::{stdin, stdout, BufWriter, Result, Write};

fn main() -> Result<()> {
    let mut output = BufWriter::new(stdout().lock());
    reference::records::run(&mut stdin().lock(), &mut output)?;
    output.flush()
}
