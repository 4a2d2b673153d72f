//! Writes the sample into the folder of the program replay, which is named.

use std::path::Path;
use std::{env, fs, io};

use compare::record::recorded;

fn main() -> io::Result<()> {
    let folder = env::args().nth(1).ok_or_else(|| io::Error::other("usage: record FOLDER"))?;
    let recorded = recorded();
    fs::write(Path::new(&folder).join("stdin"), &recorded.stdin)?;
    fs::write(Path::new(&folder).join("stdout"), &recorded.stdout)?;
    println!("{} calls recorded", recorded.count);
    Ok(())
}
