//! Standard output, and files that are whole or not there.

use crate::shown;
use crate::stop;
use anyhow::{bail, Context, Result};
use std::ffi::OsString;
use std::fs::{self, File, OpenOptions};
use std::io::{self, ErrorKind, Write};
use std::os::unix::fs::{FileTypeExt, MetadataExt};
use std::os::unix::io::AsFd;
use std::path::{Path, PathBuf};

const PIECE: usize = 1 << 16;

/// Standard output. Whoever reads it may stop: from then on what is written goes nowhere, and the work goes on.
pub struct Stdout {
    to: File,
    held: Vec<u8>,
    closed: bool,
}

impl Stdout {
    pub fn new() -> Result<Stdout> {
        let fd = io::stdout().as_fd().try_clone_to_owned();
        Ok(Stdout {
            to: File::from(fd.context("standard output")?),
            held: Vec::with_capacity(2 * PIECE),
            closed: false,
        })
    }

    /// Whether nobody reads any more.
    pub fn closed(&self) -> bool {
        self.closed
    }

    /// Writes all whole lines that are held.
    pub fn flush_lines(&mut self) -> Result<()> {
        let lines = self.held.iter().rposition(|b| *b == b'\n');
        self.put(lines.map_or(0, |i| i + 1))
    }

    fn put(&mut self, n: usize) -> Result<()> {
        if !self.closed && n > 0 {
            match self.to.write_all(&self.held[..n]) {
                Err(e) if e.kind() == ErrorKind::BrokenPipe => self.closed = true,
                done => {
                    done.context("standard output")?;
                }
            }
        }
        self.held.drain(..n);
        Ok(())
    }

    /// Lines, or a part of one.
    pub fn write(&mut self, bytes: &[u8]) -> Result<()> {
        self.held.extend_from_slice(bytes);
        if self.held.len() < PIECE {
            return Ok(());
        }
        self.flush_lines()?;
        // a picture or a clip can have no line's end for long
        if self.held.len() < PIECE {
            Ok(())
        } else {
            self.put(self.held.len())
        }
    }

    /// Writes all that is held.
    pub fn finish(&mut self) -> Result<()> {
        self.put(self.held.len())
    }
}

/// A file that the command reads, and what it is called in a message.
pub struct Input<'a> {
    pub what: &'static str,
    pub path: &'a Path,
}

/// Where something is written: standard output (`-`), or a file. A file is written beside its place, which it takes when it is whole.
pub struct Output {
    name: String,
    to: To,
    held: Vec<u8>,
}

enum To {
    Stdout,
    /// A device or a pipe
    Straight(File),
    Beside {
        file: File,
        temporary: PathBuf,
        place: PathBuf,
    },
    Done,
}

impl Output {
    /// Opens those that are asked for. None may be an input, or another output.
    pub fn open(inputs: &[Input<'_>], paths: &[Option<&Path>]) -> Result<Vec<Option<Output>>> {
        let mut taken = Vec::new();
        for input in inputs {
            taken.extend(Identity::of_input(input.path).map(|id| (id, input.what)));
        }
        let mut outputs = Vec::new();
        for path in paths {
            let path = match path {
                Some(path) => path,
                None => {
                    outputs.push(None);
                    continue;
                }
            };
            let id = match path.to_str() {
                Some("-") => Some(Identity::Stdout),
                _ => Identity::of(path),
            };
            let name = shown::name(path, "standard output");
            refuse_same(&taken, id.as_ref(), &name)?;
            taken.extend(id.map(|id| (id, "another output")));
            outputs.push(Some(Output::at(path)?));
        }
        // where it goes to a file
        refuse_same(&taken, Identity::of_stdout().as_ref(), "standard output")?;
        Ok(outputs)
    }

    fn at(path: &Path) -> Result<Output> {
        let name = shown::name(path, "standard output");
        let to = if path.as_os_str() == "-" {
            To::Stdout
        } else {
            To::open(path).with_context(|| name.clone())?
        };
        Ok(Output {
            name,
            to,
            held: Vec::new(),
        })
    }

    pub fn is_stdout(&self) -> bool {
        matches!(self.to, To::Stdout)
    }

    pub fn name(&self) -> &str {
        &self.name
    }

    pub fn write(&mut self, bytes: &[u8], stdout: &mut Stdout) -> Result<()> {
        if self.is_stdout() {
            return stdout.write(bytes);
        }
        self.held.extend_from_slice(bytes);
        if self.held.len() >= PIECE {
            self.put()?;
        }
        Ok(())
    }

    fn put(&mut self) -> Result<()> {
        let file = match &mut self.to {
            To::Straight(file) | To::Beside { file, .. } => file,
            To::Stdout | To::Done => return Ok(()),
        };
        file.write_all(&self.held).context(self.name.clone())?;
        self.held.clear();
        Ok(())
    }

    /// All is written: the file takes its place.
    pub fn finish(mut self) -> Result<()> {
        self.put()?;
        stop::check()?;
        if let To::Beside {
            file,
            temporary,
            place,
        } = &mut self.to
        {
            // a file system may tell only now that it has no room
            let done = file.sync_all().and_then(|()| fs::rename(temporary, place));
            done.context(self.name.clone())?;
            self.to = To::Done;
        }
        Ok(())
    }
}

impl Drop for Output {
    fn drop(&mut self) {
        if let To::Beside { temporary, .. } = &self.to {
            let _gone = fs::remove_file(temporary);
        }
    }
}

impl To {
    fn open(path: &Path) -> Result<To> {
        let place = through_links(path)?;
        let old = match fs::metadata(&place) {
            Err(e) if e.kind() == ErrorKind::NotFound => None,
            old => Some(old?),
        };
        if let Some(old) = &old {
            if old.is_dir() {
                bail!("is a directory, not a file");
            }
            // a file that may not be written is not replaced either
            let file = OpenOptions::new().write(true).open(&place)?;
            if !old.is_file() {
                return Ok(To::Straight(file));
            }
        }
        let folder = match place.parent() {
            Some(folder) if folder != Path::new("") => folder,
            _ => Path::new("."),
        };
        let (file, temporary) = create_in(folder)?;
        let to = To::Beside {
            file,
            temporary,
            place,
        };
        if let (Some(old), To::Beside { file, .. }) = (old, &to) {
            file.set_permissions(old.permissions())?;
        }
        Ok(to)
    }
}

/// A file of our own in a folder, under a name that nobody has.
fn create_in(folder: &Path) -> Result<(File, PathBuf)> {
    for n in 0..1000 {
        let path = folder.join(format!(".tuz-{}-{n}", std::process::id()));
        match OpenOptions::new().write(true).create_new(true).open(&path) {
            Err(e) if e.kind() == ErrorKind::AlreadyExists => {}
            file => return Ok((file?, path)),
        }
    }
    bail!("no name is free beside it")
}

/// The path that links lead to, also where nothing is there yet.
fn through_links(path: &Path) -> Result<PathBuf> {
    let mut path = path.to_owned();
    for _ in 0..40 {
        match fs::symlink_metadata(&path) {
            Ok(found) if found.file_type().is_symlink() => {
                let to = fs::read_link(&path)?;
                path = path.parent().unwrap_or(Path::new("")).join(to);
            }
            _ => return Ok(path),
        }
    }
    bail!("links lead in a circle")
}

/// What makes two paths the same file.
#[derive(Clone, PartialEq)]
enum Identity {
    Stdout,
    File(u64, u64),
    /// Nothing is there yet: a name in a folder.
    Name(u64, u64, OsString),
}

impl Identity {
    fn of_input(path: &Path) -> Option<Identity> {
        if path.as_os_str() == "-" {
            let fd = io::stdin().as_fd().try_clone_to_owned().ok()?;
            return Identity::of_file(&File::from(fd).metadata().ok()?);
        }
        Identity::of_file(&fs::metadata(path).ok()?)
    }

    fn of_stdout() -> Option<Identity> {
        let fd = io::stdout().as_fd().try_clone_to_owned().ok()?;
        Identity::of_file(&File::from(fd).metadata().ok()?)
    }

    /// Devices and pipes may be named more than once.
    fn of_file(file: &fs::Metadata) -> Option<Identity> {
        let kind = file.file_type();
        let passing = kind.is_char_device() || kind.is_fifo() || kind.is_socket();
        (!passing).then(|| Identity::File(file.dev(), file.ino()))
    }

    fn of(path: &Path) -> Option<Identity> {
        if let Ok(file) = fs::metadata(path) {
            return Identity::of_file(&file);
        }
        let place = through_links(path).ok()?;
        let folder = match place.parent() {
            Some(folder) if folder != Path::new("") => folder,
            _ => Path::new("."),
        };
        let folder = fs::metadata(folder).ok()?;
        let name = place.file_name()?.to_owned();
        Some(Identity::Name(folder.dev(), folder.ino(), name))
    }
}

fn refuse_same(
    taken: &[(Identity, &'static str)],
    id: Option<&Identity>,
    name: &str,
) -> Result<()> {
    let same = taken.iter().find(|(other, _)| Some(other) == id);
    if let Some((_, what)) = same {
        bail!("{name}: is the same file as {what}, which would be lost");
    }
    Ok(())
}
