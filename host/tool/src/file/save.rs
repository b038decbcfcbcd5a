//! Putting a file in place: written whole beside its name, synced, then renamed over it. Whatever fails, the old file
//! stands and nothing half-written is left; a run that is killed while it writes may leave a file `.dihyravo-*.part`
//! beside it.

use crate::failure::Failure;
use std::fs::{self, File, OpenOptions, Permissions};
use std::io::{self, Write};
use std::path::{Path, PathBuf};
use std::process;

/// Before the work: whether the folder is there and the name can be a file's. A file that is read-only is meant to
/// stay; to rename another over it would be allowed all the same.
pub fn check(path: &Path) -> Result<(), Failure> {
    match fs::metadata(path) {
        Ok(found) if found.is_dir() => return Err(failed(path, "it is a folder")),
        Ok(found) if found.permissions().readonly() => {
            return Err(failed(path, "it is there and read-only"));
        }
        _ => (),
    }
    check_folder(path, path)?;
    let place = place(path).map_err(|why| failed(path, why))?;
    check_folder(path, &place)
}

/// Whether the folder of the place that the path leads to is there.
fn check_folder(path: &Path, place: &Path) -> Result<(), Failure> {
    match fs::metadata(folder(place)) {
        Ok(found) if found.is_dir() => Ok(()),
        Ok(_) => Err(failed(path, "its folder is not a folder")),
        Err(why) => Err(failed(path, format!("its folder: {why}"))),
    }
}

/// Where the bytes go. A link stays a link: what it leads to is replaced, or made where it isn't there yet.
fn place(path: &Path) -> io::Result<PathBuf> {
    let mut place = path.to_owned();
    loop {
        match fs::metadata(&place) {
            // A pipe has no other name than the link's.
            Ok(_) => return Ok(fs::canonicalize(&place).unwrap_or(place)),
            // Links in a ring end here.
            Err(why) if why.kind() != io::ErrorKind::NotFound => return Err(why),
            Err(_) if place.is_symlink() => place = folder(&place).join(fs::read_link(&place)?),
            Err(_) => return Ok(place),
        }
    }
}

pub fn save(path: &Path, bytes: &[u8]) -> Result<(), Failure> {
    let place = place(path).map_err(|why| failed(path, why))?;
    let old = fs::metadata(&place).ok();
    let written = match &old {
        // A device or a pipe can't be replaced.
        Some(found) if !found.is_file() => OpenOptions::new()
            .write(true)
            .open(&place)
            .and_then(|mut f| f.write_all(bytes)),
        _ => replace(&place, bytes, old.map(|m| m.permissions())),
    };
    written.map_err(|why| failed(path, why))
}

fn replace(path: &Path, bytes: &[u8], permissions: Option<Permissions>) -> io::Result<()> {
    let (mut file, beside) = create_beside(path)?;
    // The permissions first: what nobody else may read is never there to be read.
    let written = permissions
        .map_or(Ok(()), |p| file.set_permissions(p))
        .and_then(|()| file.write_all(bytes))
        .and_then(|()| file.sync_all())
        .and_then(|()| fs::rename(&beside, path));
    if written.is_err() {
        // The first error is the one to tell.
        let _ = fs::remove_file(&beside);
    }
    written
}

/// A new file in the same folder, so that it can be renamed; its name is one that no other run has.
fn create_beside(path: &Path) -> io::Result<(File, PathBuf)> {
    let mut taken = None;
    for attempt in 0..100 {
        let beside = folder(path).join(format!(".dihyravo-{}-{attempt}.part", process::id()));
        match OpenOptions::new()
            .write(true)
            .create_new(true)
            .open(&beside)
        {
            Ok(file) => return Ok((file, beside)),
            Err(why) if why.kind() == io::ErrorKind::AlreadyExists => taken = Some(why),
            Err(why) => return Err(why),
        }
    }
    Err(taken.unwrap_or_else(|| io::ErrorKind::AlreadyExists.into()))
}

fn folder(path: &Path) -> &Path {
    match path.parent() {
        Some(folder) if folder != Path::new("") => folder,
        _ => Path::new("."),
    }
}

fn failed(path: &Path, why: impl std::fmt::Display) -> Failure {
    Failure::unusable(format!("'{}' can't be written: {why}", path.display()))
}
