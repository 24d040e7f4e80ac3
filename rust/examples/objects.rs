//! Threads read blocks of a file through one cache, which keeps each where it was read to.

use ferretgold::{LoadError, ObjectConfig, Objects, Pinned};
use std::error::Error;
use std::fs::{self, File};
use std::io;
use std::os::unix::fs::FileExt;
use std::sync::Arc;
use std::thread;

const BLOCK: usize = 4096;

/// A file, and a cache of its blocks and of other files'. A clone is of the same.
#[derive(Clone)]
struct Blocks {
    file: Arc<File>,
    number: u64,
    cache: Objects<Vec<u8>>,
}

impl Blocks {
    /// A block, which stays where it is while the caller has it. Of threads that ask for it at once
    /// one reads it from the file.
    fn get(&self, index: u64) -> Result<Pinned<Vec<u8>>, LoadError<io::Error>> {
        let mut key = [0; 16];
        key[..8].copy_from_slice(&self.number.to_le_bytes());
        key[8..].copy_from_slice(&index.to_le_bytes());
        self.cache.get_or_insert_with(&key, || {
            let mut bytes = vec![0; BLOCK];
            self.file.read_exact_at(&mut bytes, index * BLOCK as u64)?;
            Ok((bytes, BLOCK as u32))
        })
    }
}

/// How many of 10,000 blocks have the bytes that the file was filled with.
fn right(blocks: &Blocks, many: u64) -> Result<u64, LoadError<io::Error>> {
    let mut right = 0;
    for round in 0..10_000 {
        let index = round * round % many;
        let block = blocks.get(index)?;
        right += u64::from(block.iter().all(|byte| u64::from(*byte) == index));
    }
    Ok(right)
}

fn main() -> Result<(), Box<dyn Error>> {
    let path = std::env::temp_dir().join(format!("ferretgold.{}", std::process::id()));
    fs::write(
        &path,
        (0..200).flat_map(|byte| [byte; BLOCK]).collect::<Vec<u8>>(),
    )?;
    let blocks = Blocks {
        file: Arc::new(File::open(&path)?),
        number: 1,
        cache: Objects::open(&ObjectConfig::sized(100 * BLOCK as u64, BLOCK as u64))?,
    };
    fs::remove_file(&path)?;
    let threads: Vec<_> = (0..4)
        .map(|_| blocks.clone())
        .map(|blocks| thread::spawn(move || right(&blocks, 200)))
        .collect();
    let mut sum = 0;
    for it in threads {
        sum += it.join().unwrap()?;
    }
    println!("{sum} blocks are right");
    Ok(())
}
