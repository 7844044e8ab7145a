//! The public register and the ledger together, as one file.
use crate::limits::{SHORTEST_SNAPSHOT, SNAPSHOT_BYTES};
use crate::tables::count;
use crate::{ffi, Ledger, Refusal, Register};
use std::error::Error;
use std::fmt;
use std::fs::{self, File, OpenOptions};
use std::io::{self, Read, Write};
use std::path::{Path, PathBuf};
use std::process;
use std::sync::atomic::{AtomicU32, Ordering};

/// The public register and a ledger together, which a snapshot holds: one file of bytes that is the same on every machine. The overrides
/// are not in it, and reading leaves them; in the place of `register`, beside an empty ledger, they make a snapshot of their own.
///
/// What was written is read back word for word, and a snapshot that is accepted is, byte for byte, the one that the tables which it yields
/// are written as. Only its form is checked, and not where it comes from. Its verdicts may no longer be true, or never have been: call
/// [`rejudge`](Tables::rejudge) before you go by them.
///
/// ```
/// use aspa_filter::{AsNumber, Refusal, Tables, SNAPSHOT_BYTES};
///
/// let mut tables = Tables::new();
/// tables.register.file(0, AsNumber(10), &[AsNumber(20)])?;
/// let mut output = [0; SNAPSHOT_BYTES];
/// let length = tables.write(&mut output)?;
/// assert_eq!(length, 56);
///
/// let mut again = Tables::new();
/// assert_eq!(again.read(&output[..length - 1]), Err(Refusal::SnapshotLength));
/// again.read(&output[..length])?;
/// assert_eq!(again, tables);
/// # Ok::<(), Refusal>(())
/// ```
#[derive(Clone, Debug, Default, PartialEq, Eq)]
pub struct Tables {
    /// The public provider records.
    pub register: Register,
    /// The kept routes.
    pub ledger: Ledger,
}

impl Tables {
    /// Both tables empty.
    pub fn new() -> Tables {
        Tables::default()
    }

    /// [`Ledger::rejudge`] by the register and these overrides.
    ///
    /// # Errors
    ///
    /// [`TableLength`](Refusal::TableLength), [`RegisterMalformed`](Refusal::RegisterMalformed),
    /// [`LedgerMalformed`](Refusal::LedgerMalformed).
    pub fn rejudge(&mut self, overrides: &Register) -> Result<u32, Refusal> {
        self.ledger.rejudge(&self.register, overrides)
    }

    /// Writes the snapshot to the start of the output, and answers its length in bytes. The output's bytes behind it stay.
    /// [`SNAPSHOT_BYTES`] are enough for any.
    ///
    /// # Errors
    ///
    /// [`TableLength`](Refusal::TableLength), [`RegisterMalformed`](Refusal::RegisterMalformed),
    /// [`LedgerMalformed`](Refusal::LedgerMalformed), [`OutputLength`](Refusal::OutputLength). Then no byte of the output has changed.
    pub fn write(&self, output: &mut [u8]) -> Result<usize, Refusal> {
        let possible = SHORTEST_SNAPSHOT..=output.len().min(SNAPSHOT_BYTES);
        let told = ffi::write(&self.register.0, &self.ledger.0, output);
        count(told, possible).map(|length| length as usize)
    }

    /// Reads a snapshot into both tables. Their earlier words are not looked at, only their lengths. It takes some 101 KiB of stack.
    ///
    /// # Errors
    ///
    /// [`TableLength`](Refusal::TableLength); of less than 20 bytes [`SnapshotLength`](Refusal::SnapshotLength);
    /// [`Edition`](Refusal::Edition), [`Contents`](Refusal::Contents), [`SnapshotLength`](Refusal::SnapshotLength); of the tables in it
    /// [`RegisterMalformed`](Refusal::RegisterMalformed), [`LedgerMalformed`](Refusal::LedgerMalformed). Then no word of the tables has
    /// changed. A version before 0.4.0 may have written a list that holds its own customer, and one before 0.5.0 a path with two equal
    /// numbers side by side: that register and that ledger are malformed now.
    pub fn read(&mut self, snapshot: &[u8]) -> Result<(), Refusal> {
        let row = ffi::read(snapshot, &mut self.register.0, &mut self.ledger.0);
        Refusal::told(row, 0)
    }

    /// Writes the snapshot to a writer, in one piece.
    ///
    /// # Errors
    ///
    /// [`Refused`](SnapshotError::Refused) where [`write`](Tables::write) is, and then nothing is written;
    /// [`Io`](SnapshotError::Io) if the writer fails.
    pub fn write_to(&self, mut writer: impl Write) -> Result<(), SnapshotError> {
        writer.write_all(&self.bytes()?)?;
        Ok(())
    }

    /// Tables of the snapshot that a reader gives, up to its end. Of one that goes on for longer than any snapshot, no more is read than
    /// it takes to see that.
    ///
    /// # Errors
    ///
    /// [`Refused`](SnapshotError::Refused) where [`read`](Tables::read) is; [`Io`](SnapshotError::Io) if the reader fails.
    pub fn read_from(reader: impl Read) -> Result<Tables, SnapshotError> {
        // With one byte too many the refusal is the one of the whole: rows 22 and 23 go by the first bytes, and 24 is given next.
        let mut bytes = Vec::new();
        reader
            .take(SNAPSHOT_BYTES as u64 + 1)
            .read_to_end(&mut bytes)?;
        let mut tables = Tables::new();
        tables.read(&bytes)?;
        Ok(tables)
    }

    /// Saves the snapshot as a file, in the place of one that has this name.
    ///
    /// It is written under another name in the same directory, and takes this one when it is whole and on the disk: whoever opens the
    /// file, also after a crash, finds the earlier snapshot or this one. A crash may leave the other file, which begins with
    /// `.aspa-filter.`. A symbolic link of this name is replaced, and not what it leads to. The permissions are those of a new file.
    ///
    /// # Errors
    ///
    /// [`Refused`](SnapshotError::Refused) where [`write`](Tables::write) is, and then nothing is touched; [`Io`](SnapshotError::Io).
    pub fn save(&self, path: impl AsRef<Path>) -> Result<(), SnapshotError> {
        let bytes = self.bytes()?;
        Ok(replace(path.as_ref(), &bytes)?)
    }

    /// The tables that [`save`](Tables::save) saved.
    ///
    /// # Errors
    ///
    /// Those of [`read_from`](Tables::read_from).
    pub fn load(path: impl AsRef<Path>) -> Result<Tables, SnapshotError> {
        Tables::read_from(File::open(path)?)
    }

    fn bytes(&self) -> Result<Vec<u8>, Refusal> {
        let mut bytes = vec![0; SNAPSHOT_BYTES];
        let length = self.write(&mut bytes)?;
        bytes.truncate(length);
        Ok(bytes)
    }
}

/// A file with these bytes, which takes its name when it is whole.
fn replace(path: &Path, bytes: &[u8]) -> io::Result<()> {
    if path.file_name().is_none() {
        return Err(io::ErrorKind::InvalidInput.into());
    }
    let directory = match path.parent() {
        Some(parent) if parent != Path::new("") => parent,
        _ => Path::new("."),
    };
    let (file, other) = create(directory)?;
    let moved = fill(file, bytes).and_then(|()| fs::rename(&other, path));
    if moved.is_err() {
        // The first error is the one to tell.
        let _ = fs::remove_file(&other);
    }
    moved?;
    // The name is on the disk when its directory is.
    File::open(directory)?.sync_all()
}

/// An empty file of a name that nothing had.
fn create(directory: &Path) -> io::Result<(File, PathBuf)> {
    static COUNT: AtomicU32 = AtomicU32::new(0);
    loop {
        let count = COUNT.fetch_add(1, Ordering::Relaxed);
        let other = directory.join(format!(".aspa-filter.{}.{count}.new", process::id()));
        match OpenOptions::new().write(true).create_new(true).open(&other) {
            Ok(file) => return Ok((file, other)),
            // Left by a process of the same number that did not come to its end.
            Err(error) if error.kind() == io::ErrorKind::AlreadyExists => {}
            Err(error) => return Err(error),
        }
    }
}

fn fill(mut file: File, bytes: &[u8]) -> io::Result<()> {
    file.write_all(bytes)?;
    file.sync_all()
}

/// Why a snapshot was not saved or loaded. Its text is that of the refusal or of the error.
#[non_exhaustive]
#[derive(Debug)]
pub enum SnapshotError {
    /// The tables, or what was read, were refused.
    Refused(Refusal),
    /// Reading or writing failed.
    Io(io::Error),
}

impl fmt::Display for SnapshotError {
    fn fmt(&self, f: &mut fmt::Formatter<'_>) -> fmt::Result {
        match self {
            SnapshotError::Refused(refusal) => refusal.fmt(f),
            SnapshotError::Io(error) => error.fmt(f),
        }
    }
}

impl Error for SnapshotError {
    // The refusal or the error is told by the text already, so the source is what stands behind it.
    fn source(&self) -> Option<&(dyn Error + 'static)> {
        match self {
            SnapshotError::Refused(refusal) => refusal.source(),
            SnapshotError::Io(error) => error.source(),
        }
    }
}

impl From<Refusal> for SnapshotError {
    fn from(refusal: Refusal) -> SnapshotError {
        SnapshotError::Refused(refusal)
    }
}

impl From<io::Error> for SnapshotError {
    fn from(error: io::Error) -> SnapshotError {
        SnapshotError::Io(error)
    }
}
