//! Saving a file whole or not at all, and which files are the same.

use std::ffi::OsString;
use std::fs::{self, File, FileType, OpenOptions, Permissions};
use std::io;
use std::os::unix::fs::{FileTypeExt, MetadataExt, OpenOptionsExt};
use std::path::{Path, PathBuf};
use std::process;

/// Links that are followed one after another, and names that are tried.
const MOST: usize = 40;

/// Where a file is to be saved: a regular file, or a name that is free.
pub struct Target {
    /// The name as it was given.
    name: PathBuf,
    /// The same with its links followed.
    path: PathBuf,
}

impl Target {
    /// The target of a name. What is there and is no regular file is refused.
    pub fn of(name: &Path) -> Result<Self, String> {
        let target = follow(name).and_then(|path| {
            permissions(&path)?;
            Ok(path)
        });
        match target {
            Ok(path) => Ok(Target {
                name: name.into(),
                path,
            }),
            Err(message) => Err(cannot(name, &message)),
        }
    }

    /// Save a file, with the mode of the one that it replaces. If that fails the old one is as it
    /// was.
    pub fn save(&self, write: impl FnOnce(&mut File) -> io::Result<()>) -> Result<(), String> {
        self.replace(write)
            .map_err(|message| cannot(&self.name, &message))
    }

    fn replace(&self, write: impl FnOnce(&mut File) -> io::Result<()>) -> Result<(), String> {
        let permissions = permissions(&self.path)?;
        let (beside, mut file) =
            create_beside(&self.path, permissions.is_some()).map_err(|error| error.to_string())?;
        write(&mut file)
            .and_then(|()| permissions.map_or(Ok(()), |mode| file.set_permissions(mode)))
            .and_then(|()| file.sync_all())
            .and_then(|()| fs::rename(&beside, &self.path))
            .map_err(|error| {
                // The first error is the one that counts.
                let _ = fs::remove_file(&beside);
                error.to_string()
            })
    }
}

fn cannot(name: &Path, message: &str) -> String {
    format!("{}: cannot save: {message}", name.display())
}

/// The mode of the regular file at a path; none where nothing is there.
fn permissions(path: &Path) -> Result<Option<Permissions>, String> {
    match fs::metadata(path) {
        Ok(found) if found.is_file() => Ok(Some(found.permissions())),
        Ok(found) => Err(format!("it is {}, not a file", kind(found.file_type()))),
        Err(error) if error.kind() == io::ErrorKind::NotFound => {
            let folder = folder(path);
            match folder.is_dir() {
                true => Ok(None),
                false => Err(format!("there is no folder {}", folder.display())),
            }
        }
        Err(error) => Err(error.to_string()),
    }
}

fn kind(found: FileType) -> &'static str {
    if found.is_dir() {
        "a folder"
    } else if found.is_fifo() {
        "a FIFO"
    } else if found.is_socket() {
        "a socket"
    } else {
        "a device"
    }
}

/// A path with its links followed, also where the last one leads to nothing.
fn follow(path: &Path) -> Result<PathBuf, String> {
    let mut path = path.to_path_buf();
    for _ in 0..MOST {
        match fs::read_link(&path) {
            Ok(to) => path = folder(&path).join(to),
            // Not a link, or nothing there.
            Err(_) => return Ok(path),
        }
    }
    Err("too many links".into())
}

fn folder(path: &Path) -> &Path {
    match path.parent() {
        Some(folder) if folder != Path::new("") => folder,
        _ => Path::new("."),
    }
}

/// A new file in the same folder, for the owner alone where it is to get another file's mode.
fn create_beside(path: &Path, private: bool) -> io::Result<(PathBuf, File)> {
    let mode = if private { 0o600 } else { 0o666 };
    for number in 0.. {
        let mut name = OsString::from(".");
        name.push(path.file_name().unwrap_or_default());
        name.push(format!(".{}.{number}.new", process::id()));
        let beside = path.with_file_name(name);
        let mut options = OpenOptions::new();
        let created = options
            .write(true)
            .create_new(true)
            .mode(mode)
            .open(&beside);
        match created {
            // Left by a run that was stopped.
            Err(error) if error.kind() == io::ErrorKind::AlreadyExists && number < MOST => {}
            created => return created.map(|file| (beside, file)),
        }
    }
    unreachable!("the last name is tried and answered")
}

/// Whether two names are of one file, there or not.
pub fn same(left: &Path, right: &Path) -> bool {
    if let (Ok(left), Ok(right)) = (fs::metadata(left), fs::metadata(right)) {
        return left.is_file() && (left.dev(), left.ino()) == (right.dev(), right.ino());
    }
    matches!((place(left), place(right)), (Some(left), Some(right)) if left == right)
}

fn place(path: &Path) -> Option<PathBuf> {
    let path = follow(path).ok()?;
    Some(
        fs::canonicalize(folder(&path))
            .ok()?
            .join(path.file_name()?),
    )
}
