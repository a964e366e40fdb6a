//! The two forms of a basis.

use std::fmt;

/// Bytes of a data run in the old form.
pub const RUN_LENGTH: usize = 4_554;

/// Bytes of a basis file in the old form.
pub const FILE_LENGTH: usize = 4_608;

/// Bytes of a data run in the new form.
pub const RUN_LENGTH_2: usize = 5_060;

/// Bytes of a basis file in the new form.
pub const FILE_LENGTH_2: usize = 5_120;

/// The form of a basis, which the length of its data run or of its file tells. Only the proportions remaining at mid-point
/// differ. A basis is used alike in both, and one whose proportions are the same answers the same.
///
/// ```
/// let basis = parvusek::Basis::open("../../samples/basis.bin")?;
/// assert_eq!(basis.form(), parvusek::Form::Mpb1);
/// assert_eq!(basis.form().to_string(), "MPB1");
/// # Ok::<(), parvusek::OpenError>(())
/// ```
#[derive(Clone, Copy, Debug, PartialEq, Eq, Hash)]
pub enum Form {
    /// The old form: a proportion is one byte, 0 to 150 per cent.
    Mpb1,
    /// The new form: a proportion is two bytes, 0 to 15,000 hundredths of a per cent.
    Mpb2,
}

impl Form {
    /// The form of a data run of this length; of any other, of which no field is looked at, the old one.
    pub(crate) fn of_run(length: usize) -> Form {
        match length {
            RUN_LENGTH_2 => Form::Mpb2,
            _ => Form::Mpb1,
        }
    }

    /// The same of a file.
    pub(crate) fn of_file(length: usize) -> Form {
        match length {
            FILE_LENGTH_2 => Form::Mpb2,
            _ => Form::Mpb1,
        }
    }

    /// Bytes of a data run.
    pub fn run_length(self) -> usize {
        match self {
            Form::Mpb1 => RUN_LENGTH,
            Form::Mpb2 => RUN_LENGTH_2,
        }
    }

    /// Bytes of a basis file.
    pub fn file_length(self) -> usize {
        match self {
            Form::Mpb1 => FILE_LENGTH,
            Form::Mpb2 => FILE_LENGTH_2,
        }
    }
}

/// The mark with which a data run begins.
impl fmt::Display for Form {
    fn fmt(&self, f: &mut fmt::Formatter<'_>) -> fmt::Result {
        f.pad(match self {
            Form::Mpb1 => "MPB1",
            Form::Mpb2 => "MPB2",
        })
    }
}
