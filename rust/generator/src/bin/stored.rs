//! Writes the stored inputs of the program bsmlist, its arguments and its
//! expected output below crates/bsmlist, and says which files changed.

use generator::stored_files;
use std::fs;
use std::io;
use std::path::Path;

fn main() -> io::Result<()> {
    let folder = Path::new(env!("CARGO_MANIFEST_DIR")).join("../../crates/bsmlist");
    let files = stored_files();
    for file in &files {
        let path = folder.join(&file.path);
        if fs::read(&path).ok().as_ref() != Some(&file.bytes) {
            fs::write(&path, &file.bytes)?;
            println!("{} changed", file.path);
        }
    }
    for entry in fs::read_dir(folder.join("data"))? {
        let entry = entry?;
        let path = format!("data/{}", entry.file_name().to_string_lossy());
        if files.iter().all(|file| file.path != path) {
            fs::remove_file(entry.path())?;
            println!("{path} removed");
        }
    }
    println!("{} files", files.len());
    Ok(())
}
