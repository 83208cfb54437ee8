// Real titles, from beside the repository or from the folder that VOBSUB_TITLES names.
use std::env;
use std::fs;
use std::io;
use std::path::{Path, PathBuf};

pub struct Title {
    pub name: String,
    pub text: String,
    pub file: Vec<u8>,
    pub positions: Vec<usize>,
}

pub fn folder() -> PathBuf {
    env::var("VOBSUB_TITLES").map(PathBuf::from).unwrap_or_else(|_| PathBuf::from(env!("CARGO_MANIFEST_DIR")).join("../../shared/titles"))
}

pub fn titles() -> Vec<Title> {
    read(&folder()).unwrap_or_else(|(path, error)| stop(&path, &error.to_string()))
}

// Ends with a line: nothing can be asked of these titles.
pub fn stop(path: &Path, why: &str) -> ! {
    eprintln!("titles: {}: {why}", path.display());
    std::process::exit(2)
}

// Of each folder that has an index text, in the order of their names.
fn read(folder: &Path) -> Result<Vec<Title>, (PathBuf, io::Error)> {
    let at = |path: &Path, error| (path.to_path_buf(), error);
    let found = fs::read_dir(folder).and_then(|entries| entries.map(|e| e.map(|e| e.path())).collect::<io::Result<Vec<_>>>());
    let mut paths = found.map_err(|e| at(folder, e))?;
    paths.sort();
    let mut titles = Vec::new();
    for path in paths.iter().filter(|path| path.join("title.idx").exists()) {
        let (index, sub) = (path.join("title.idx"), path.join("title.sub"));
        let text = fs::read_to_string(&index).map_err(|e| at(&index, e))?;
        let file = fs::read(&sub).map_err(|e| at(&sub, e))?;
        let positions = (crate::original::adapter::SIDE.positions)(&text);
        titles.push(Title { name: path.file_name().unwrap_or_default().to_string_lossy().into_owned(), text, file, positions });
    }
    Ok(titles)
}
