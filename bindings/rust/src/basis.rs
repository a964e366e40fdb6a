//! The basis: a data run that the engine has accepted, and the history that goes with it.

use std::error::Error;
use std::fmt;
use std::fs::File;
use std::io::{self, Read};
use std::path::Path;

use crate::ffi;
use crate::version::check_linked_version;
use crate::{Form, Refusal, FILE_LENGTH, FILE_LENGTH_2};

/// Bytes of a history file for each year from B + 1 to F.
pub const HISTORY_YEAR: usize = 1_024;

/// An accepted basis. It owns its data run and its history, which never change, so that any thread may use it.
///
/// A basis whose base year B is before its foundation year F needs a history: the actual improvements of the years
/// B + 1 to F, lent to every enquiry. Without it the basis can be read, written and brought to the short form, and every
/// enquiry is refused by 13. Any other basis has none.
///
/// ```
/// use parvusek::{decimal, Basis, Kind};
///
/// let basis = Basis::open("../../samples/basis.bin")?;
/// let annuity = basis.annuity(Kind::Cohort, 65, 0, 2010)?;
/// assert_eq!(decimal(annuity).to_string(), "15.698927802");
///
/// let refusal = basis.annuity(Kind::Cohort, 19, 0, 2010).unwrap_err();
/// assert_eq!(refusal.to_string(), "refused 6: age outside 20 to 150 (age 19)");
/// # Ok::<(), Box<dyn std::error::Error>>(())
/// ```
#[derive(Clone, PartialEq, Eq, Hash)]
pub struct Basis {
    run: Box<[u8]>,
    history: Box<[u8]>,
}

// ---- reading and writing

impl Basis {
    /// The basis of a data run, without a history, refused by 1, 4 or 5. The engine checks it here, and again in each
    /// call.
    ///
    /// ```
    /// let refusal = parvusek::Basis::from_run(b"MPB1").unwrap_err();
    /// assert_eq!((refusal.number, refusal.first, refusal.second), (1, 0, 0));
    /// ```
    pub fn from_run(run: &[u8]) -> Result<Basis, Refusal> {
        check_linked_version();
        // SAFETY: the pointer and the length are those of a slice.
        unsafe { ffi::parvusek_check_basis(run.as_ptr(), run.len()) }.unless_none()?;
        Ok(Basis::without_history(run.into()))
    }

    /// The basis of the bytes of a basis file, without a history, refused by 1 to 5.
    ///
    /// ```
    /// let mut file = std::fs::read("../../samples/basis.bin")?;
    /// file[700] ^= 1;
    /// let refusal = parvusek::Basis::from_file(&file).unwrap_err();
    /// assert_eq!(refusal.to_string(), "refused 2: a block's check is wrong (block 1)");
    /// # Ok::<(), std::io::Error>(())
    /// ```
    pub fn from_file(file: &[u8]) -> Result<Basis, Refusal> {
        check_linked_version();
        let mut run = vec![0; Form::of_file(file.len()).run_length()].into_boxed_slice();
        // SAFETY: the pointers and lengths are those of two slices, which do not overlap.
        unsafe { ffi::parvusek_read_basis(file.as_ptr(), file.len(), run.as_mut_ptr(), run.len()) }.unless_none()?;
        Ok(Basis::without_history(run))
    }

    /// The basis of the basis file at a path, without a history.
    ///
    /// ```
    /// use parvusek::{Basis, OpenError};
    ///
    /// assert_eq!(Basis::open("../../samples/basis.bin")?.base_year(), 2008);
    /// assert!(matches!(Basis::open("no such file"), Err(OpenError::Io(_))));
    /// assert!(matches!(Basis::open("Cargo.toml"), Err(OpenError::Refused(refusal)) if refusal.number == 1));
    /// # Ok::<(), OpenError>(())
    /// ```
    pub fn open(path: impl AsRef<Path>) -> Result<Basis, OpenError> {
        Ok(Basis::from_file(&read(path, FILE_LENGTH_2)?)?)
    }

    /// The basis of the basis file at a path, with the history file at another.
    ///
    /// ```
    /// # use parvusek::{Basis, OpenError};
    /// // The sample's base year is after its foundation year: any file but an empty one is no history of it.
    /// let opened = Basis::open_with_history("../../samples/basis.bin", "Cargo.toml");
    /// assert!(matches!(opened, Err(OpenError::Refused(refusal)) if (refusal.number, refusal.first) == (13, 0)));
    /// ```
    pub fn open_with_history(path: impl AsRef<Path>, history: impl AsRef<Path>) -> Result<Basis, OpenError> {
        let basis = Basis::open(path)?;
        let history = read(history, basis.history_needed())?;
        Ok(basis.with_history(&history)?)
    }

    /// This basis with the bytes of a history file, instead of the one that it has. Refused by 13 (its length),
    /// then by 2 to 5 of the history itself. The engine checks it here, and again in each call.
    ///
    /// ```
    /// # let basis = parvusek::Basis::open("../../samples/basis.bin")?;
    /// // Improvements are known from the year after the base year on.
    /// let mut run = basis.run().to_vec();
    /// run[6..8].copy_from_slice(&2005_u16.to_le_bytes());
    /// let older = parvusek::Basis::from_run(&run)?;
    /// assert_eq!(older.history_needed(), 1_024);
    ///
    /// let refusal = older.annuity(parvusek::Kind::Cohort, 65, 0, 2010).unwrap_err();
    /// assert_eq!((refusal.number, refusal.first), (13, 1_024));
    /// let refusal = older.with_history(&[1; 1_024]).unwrap_err();
    /// assert_eq!((refusal.number, refusal.first), (2, 0));
    /// # Ok::<(), Box<dyn std::error::Error>>(())
    /// ```
    pub fn with_history(mut self, history: &[u8]) -> Result<Basis, Refusal> {
        self.history = history.into();
        // The start of a lifeline at age 20 in B is refused by the basis alone, and uses no rate.
        self.lifeline(20, self.base_year())?;
        Ok(self)
    }

    fn without_history(run: Box<[u8]>) -> Basis {
        Basis { run, history: Box::default() }
    }

    /// The form, which stays the same in [`to_file`](Basis::to_file) and in the short form.
    pub fn form(&self) -> Form {
        Form::of_run(self.run.len())
    }

    /// The data run, of 4,554 or 5,060 bytes. A proportion of the old form is per cent in it, one of the new form
    /// hundredths of a per cent.
    pub fn run(&self) -> &[u8] {
        &self.run
    }

    /// The history file's bytes; none where there is no history.
    pub fn history(&self) -> &[u8] {
        &self.history
    }

    /// The bytes that the history of this basis has: 1,024 for each year from B + 1 to F, so 0 with B at F or later.
    pub fn history_needed(&self) -> usize {
        HISTORY_YEAR * self.foundation_year().saturating_sub(self.base_year()) as usize
    }

    /// The bytes of the basis file, in its own form; reading them gives this basis again.
    ///
    /// ```
    /// # use parvusek::Basis;
    /// let file = std::fs::read("../../samples/basis.bin")?;
    /// let basis = Basis::from_file(&file)?;
    /// assert_eq!(basis.to_file(), file);
    /// # Ok::<(), Box<dyn std::error::Error>>(())
    /// ```
    pub fn to_file(&self) -> Vec<u8> {
        let mut file = vec![0; self.form().file_length()];
        // SAFETY: the pointers and lengths are those of two slices, which do not overlap.
        let refusal =
            unsafe { ffi::parvusek_write_basis(self.run.as_ptr(), self.run.len(), file.as_mut_ptr(), file.len()) };
        refusal.unless_none().expect("an accepted data run is written");
        file
    }

    /// The bytes of the basis file in the old form, for programs that read no other; a basis that is read from them
    /// answers as this one does. Refused by 17 where a proportion is no whole per cent, with its offset in
    /// [`run`](Basis::run).
    ///
    /// ```
    /// # use parvusek::{Basis, Form};
    /// let basis = Basis::open("../../samples/basis.bin")?;
    /// assert_eq!(Basis::from_file(&basis.to_old_form()?)?.form(), Form::Mpb1);
    /// # Ok::<(), Box<dyn std::error::Error>>(())
    /// ```
    pub fn to_old_form(&self) -> Result<[u8; FILE_LENGTH], Refusal> {
        let mut file = [0; FILE_LENGTH];
        let (run, len) = (self.run.as_ptr(), self.run.len());
        // SAFETY: the pointers and lengths are those of a slice and an array, which do not overlap.
        unsafe { ffi::parvusek_write_old_form(run, len, file.as_mut_ptr(), file.len()) }.unless_none()?;
        Ok(file)
    }

    /// The short form: the basis that differs only in its long-term rates (this one to age 90, running off to 0 at
    /// 120; none by birth year), in T (by age 20 to 60, then 20 less the whole part of (age − 60) / 2 to 90, and 5
    /// above; by birth year 20), and in P (50 per cent). Its form and its history stay. A rate beyond ±200,000,000
    /// units is refused by 5.
    ///
    /// ```
    /// # use parvusek::Basis;
    /// # let basis = Basis::open("../../samples/basis.bin")?;
    /// let short = basis.short_form(10_000_000)?;
    /// assert_eq!(short.base_year(), basis.base_year());
    /// let refusal = basis.short_form(200_000_001).unwrap_err();
    /// assert_eq!((refusal.number, refusal.first), (5, 1078));
    /// # Ok::<(), Box<dyn std::error::Error>>(())
    /// ```
    pub fn short_form(&self, long_term_rate: i32) -> Result<Basis, Refusal> {
        let mut out = vec![0; self.run.len()].into_boxed_slice();
        let (run, len) = (self.run.as_ptr(), self.run.len());
        // SAFETY: the pointers and lengths are those of two slices, which do not overlap.
        unsafe { ffi::parvusek_short_form(run, len, long_term_rate, out.as_mut_ptr(), out.len()) }.unless_none()?;
        Ok(Basis { run: out, history: self.history.clone() })
    }

    /// What every enquiry is lent: the run and the history, each with its length.
    pub(crate) fn lent(&self) -> (*const u8, usize, *const u8, usize) {
        (self.run.as_ptr(), self.run.len(), self.history.as_ptr(), self.history.len())
    }
}

// ---- settings

impl Basis {
    /// F, the year from which improvements are projected; from the year after it, where B is before it.
    pub fn foundation_year(&self) -> u32 {
        u16::from_le_bytes(self.bytes(4)).into()
    }

    /// B, the year of the base rates, and the first year of an enquiry.
    pub fn base_year(&self) -> u32 {
        u16::from_le_bytes(self.bytes(6)).into()
    }

    /// What is added to each improvement after F, in units.
    pub fn constant_addition(&self) -> i32 {
        i32::from_le_bytes(self.bytes(8))
    }

    /// The yearly rate of discount, in units; below zero where pensions rise faster than the assets.
    pub fn discount_rate(&self) -> i32 {
        i32::from_le_bytes(self.bytes(12))
    }

    fn bytes<const N: usize>(&self, offset: usize) -> [u8; N] {
        self.run[offset..offset + N].try_into().expect("the stretch has this length")
    }
}

impl fmt::Debug for Basis {
    fn fmt(&self, f: &mut fmt::Formatter<'_>) -> fmt::Result {
        f.debug_struct("Basis")
            .field("form", &self.form())
            .field("foundation_year", &self.foundation_year())
            .field("base_year", &self.base_year())
            .finish_non_exhaustive()
    }
}

// ---- files

/// The bytes of a file. Of one that is longer than wanted one byte more: enough to be refused, however long it is.
fn read(path: impl AsRef<Path>, wanted: usize) -> io::Result<Vec<u8>> {
    let mut file = Vec::with_capacity(wanted + 1);
    File::open(path)?.take(wanted as u64 + 1).read_to_end(&mut file)?;
    Ok(file)
}

/// Why [`Basis::open`] and [`Basis::open_with_history`] have no basis.
#[derive(Debug)]
pub enum OpenError {
    /// A file cannot be read.
    Io(io::Error),
    /// The engine refuses what is in it.
    Refused(Refusal),
}

impl fmt::Display for OpenError {
    fn fmt(&self, f: &mut fmt::Formatter<'_>) -> fmt::Result {
        match self {
            OpenError::Io(error) => error.fmt(f),
            OpenError::Refused(refusal) => refusal.fmt(f),
        }
    }
}

impl Error for OpenError {}

impl From<io::Error> for OpenError {
    fn from(error: io::Error) -> OpenError {
        OpenError::Io(error)
    }
}

impl From<Refusal> for OpenError {
    fn from(refusal: Refusal) -> OpenError {
        OpenError::Refused(refusal)
    }
}
