//! A service before a folder of files, each of which has a number: `cargo run --example service -- FOLDER`.
//!
//! Eight workers count visits of pages. The folder is the store of record: the numbers are there when the service begins again.
use cadwrelch::{Cache, Loader, Writer};
use std::path::PathBuf;
use std::sync::Arc;
use std::{fs, io, thread};

/// The store: a file for each page.
struct Folder(PathBuf);

impl Loader<String, u64> for Folder {
    type Error = io::Error;

    fn load(&self, page: &String) -> io::Result<Option<u64>> {
        match fs::read_to_string(self.0.join(page)) {
            Ok(text) => text.trim().parse().map(Some).map_err(io::Error::other),
            Err(error) if error.kind() == io::ErrorKind::NotFound => Ok(None),
            Err(error) => Err(error),
        }
    }
}

impl Writer<String, u64> for Folder {
    type Error = io::Error;

    fn write(&self, page: &String, visits: &u64) -> io::Result<()> {
        let new = self.0.join(format!("{page}.new"));
        fs::write(&new, visits.to_string())?;
        fs::rename(new, self.0.join(page))
    }

    fn delete(&self, page: &String) -> io::Result<()> {
        match fs::remove_file(self.0.join(page)) {
            Err(error) if error.kind() != io::ErrorKind::NotFound => Err(error),
            _ => Ok(()),
        }
    }
}

fn main() -> Result<(), Box<dyn std::error::Error>> {
    let path = std::env::args().nth(1).ok_or("usage: service FOLDER")?;
    fs::create_dir_all(&path)?;
    let folder = Arc::new(Folder(path.into()));
    let cache = Cache::builder()
        .stripes(4)
        .capacity(16_000)
        .store(folder)
        .build()?;
    thread::scope(|workers| {
        for worker in 0..8 {
            let cache = &cache;
            workers.spawn(move || {
                for visit in 0..25 {
                    let page = format!("page{}", (worker + visit) % 5);
                    let counted = cache.invoke(page, |entry| {
                        let visits = entry.value()?.map_or(0, |visits| *visits);
                        entry.set(visits + 1);
                        Ok(())
                    });
                    if let Err(error) = counted {
                        eprintln!("worker {worker}: {error}");
                    }
                }
            });
        }
    });
    let pages = cache.get_all((0..5).map(|page| format!("page{page}")))?;
    let visits: u64 = pages.values().map(|visits| **visits).sum();
    println!("{visits} visits, {:?}", cache.stats()?);
    Ok(())
}
