//! The file pairs that the proved `gateway` is held to: a folder each, with rules.csv and headers.csv in it.

mod drawn;
mod edges;
mod sized;

use std::io;
use std::path::Path;

/// What stands under a file's name.
pub enum File {
    Bytes(Vec<u8>),
    Missing,
    Folder,
}

/// Two files, and a name that says what is tried.
pub struct Pair {
    pub name: String,
    pub rules: File,
    pub headers: File,
}

impl Pair {
    /// A pair of two files that are there.
    pub fn of(name: &str, rules: impl AsRef<[u8]>, headers: impl AsRef<[u8]>) -> Pair {
        let bytes = |file: &[u8]| File::Bytes(file.to_vec());
        Pair { name: String::from(name), rules: bytes(rules.as_ref()), headers: bytes(headers.as_ref()) }
    }
}

fn write_file(path: &Path, file: &File) -> io::Result<()> {
    match file {
        File::Bytes(bytes) => std::fs::write(path, bytes),
        File::Missing => Ok(()),
        File::Folder => std::fs::create_dir(path),
    }
}

/// Writes each pair into a folder of its own; the number in front keeps them in order.
fn write_pairs(dir: &str, pairs: &[Pair]) -> io::Result<()> {
    for (i, pair) in pairs.iter().enumerate() {
        let folder = Path::new(dir).join(format!("{:04}-{}", i, pair.name));
        std::fs::create_dir_all(&folder)?;
        write_file(&folder.join("rules.csv"), &pair.rules)?;
        write_file(&folder.join("headers.csv"), &pair.headers)?;
    }
    Ok(())
}

pub fn write_edges(dir: &str) -> io::Result<()> {
    write_pairs(dir, &edges::all())
}

pub fn write_drawn(dir: &str, seed: u64, count: usize) -> io::Result<()> {
    write_pairs(dir, &drawn::all(seed, count))
}
