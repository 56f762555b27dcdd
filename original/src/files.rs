//! The files that the original reads and writes: in memory where the system has such a folder,
//! and written over again and again, because making files anew is most of a small case's time.
use std::{
    env,
    fs::{self, File, OpenOptions},
    os::unix::fs::FileExt,
    path::{Path, PathBuf},
    process,
    sync::atomic::{AtomicU32, Ordering},
};

pub struct Folder {
    path: PathBuf,
}

static MADE: AtomicU32 = AtomicU32::new(0);

impl Folder {
    pub fn new() -> Self {
        let memory = Path::new("/dev/shm");
        let base = if memory.is_dir() { memory.to_path_buf() } else { env::temp_dir() };
        let number = MADE.fetch_add(1, Ordering::Relaxed);
        let path = base.join(format!("lambspool-original-{}-{number}", process::id()));
        fs::create_dir_all(&path).expect("a temporary folder");
        Self { path }
    }

    pub fn path(&self) -> &Path {
        &self.path
    }

    /// A file that stays open for the next case.
    pub fn open(&self, name: &str) -> File {
        OpenOptions::new()
            .read(true)
            .write(true)
            .create(true)
            .truncate(false)
            .open(self.path.join(name))
            .expect("a temporary file")
    }
}

impl Drop for Folder {
    fn drop(&mut self) {
        let _ = fs::remove_dir_all(&self.path);
    }
}

/// The file holds exactly these bytes.
pub fn fill(file: &File, bytes: &[u8]) {
    file.write_all_at(bytes, 0).expect("writing a temporary file");
    file.set_len(bytes.len() as u64).expect("cutting a temporary file");
}
