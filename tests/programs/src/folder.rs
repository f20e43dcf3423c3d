//! Temporary folders, removed at the end of a test that passes.

use std::path::{Path, PathBuf};
use std::sync::atomic::{AtomicUsize, Ordering};
use std::thread::{self, JoinHandle};
use std::{env, fs, process};

use crate::system;

pub struct Folder {
    path: PathBuf,
}

impl Folder {
    pub fn new() -> Folder {
        static COUNT: AtomicUsize = AtomicUsize::new(0);
        let number = COUNT.fetch_add(1, Ordering::Relaxed);
        let name = format!("cundarivo-{}-{number}", process::id());
        let path = env::temp_dir().join(name);
        fs::create_dir(&path).expect("a new folder");
        Folder { path }
    }

    pub fn path(&self) -> &Path {
        &self.path
    }

    /// Writes a file, and gives its path.
    pub fn write(&self, name: impl AsRef<Path>, content: impl AsRef<[u8]>) -> PathBuf {
        let path = self.path.join(name);
        fs::create_dir_all(path.parent().expect("a folder")).expect("a folder");
        fs::write(&path, content).expect("a file that can be written");
        path
    }

    /// Writes each text as a file of its own, and gives their paths.
    pub fn write_texts<Text: AsRef<[u8]>>(&self, texts: &[Text]) -> Vec<PathBuf> {
        let placed = (1..).zip(texts);
        placed
            .map(|(place, text)| self.write(format!("text-{place}"), text))
            .collect()
    }

    /// Makes a fifo, into which `write` writes once somebody reads it.
    pub fn write_fifo<Written: Send + 'static>(
        &self,
        name: &str,
        write: impl FnOnce(&mut fs::File) -> Written + Send + 'static,
    ) -> (PathBuf, JoinHandle<Written>) {
        let path = self.path.join(name);
        system::make_fifo(&path);
        let fifo = path.clone();
        let writer = thread::spawn(move || {
            let mut file = fs::File::options().write(true).open(fifo);
            write(file.as_mut().expect("a fifo"))
        });
        (path, writer)
    }

    pub fn read(&self, name: impl AsRef<Path>) -> Vec<u8> {
        let path = self.path.join(name);
        fs::read(&path).unwrap_or_else(|error| panic!("{}: {error}", path.display()))
    }

    pub fn has(&self, name: &str) -> bool {
        self.path.join(name).symlink_metadata().is_ok()
    }

    /// The names in the folder, hidden ones too, sorted.
    pub fn names(&self) -> Vec<String> {
        let entries = fs::read_dir(&self.path).expect("a folder");
        let name = |entry: std::io::Result<fs::DirEntry>| {
            let name = entry.expect("an entry").file_name();
            name.into_string().expect("a name in UTF-8")
        };
        let mut names: Vec<String> = entries.map(name).collect();
        names.sort();
        names
    }
}

impl Default for Folder {
    fn default() -> Folder {
        Folder::new()
    }
}

impl Drop for Folder {
    fn drop(&mut self) {
        if !thread::panicking() {
            fs::remove_dir_all(&self.path).expect("the folder can be removed");
        }
    }
}
