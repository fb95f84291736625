use crate::{raw, Cut, Proof, Refused, Sizes, Verdict, ZDigits};

/// A sheet: its header and the numbers after it.
///
/// ```
/// use lizkarg::{Sheet, Verdict};
///
/// let text = include_bytes!("../../../examples/class-changed-digit.sheet");
/// let sheet = Sheet::read(text)?;
/// assert_eq!(sheet.sizes.r, 3);
/// assert_eq!(sheet.proof().messages.p, [2, 0]);
/// assert_eq!(sheet.proof().verify()?, Verdict::Failed(5));
/// assert_eq!(sheet.write()?, text);
/// # Ok::<(), lizkarg::Refused>(())
/// ```
#[derive(Clone, Debug, PartialEq, Eq)]
pub struct Sheet {
    /// The statement's sizes, bases and bounds. A sheet has two z digits: with one there is no base, and the writer refuses by 4 if not by 1 to 3.
    pub sizes: Sizes,
    /// ν and μ.
    pub cut: Cut,
    /// All numbers after the header, in the sheet's order.
    pub numbers: Vec<i32>,
}

impl Sheet {
    /// Reads a sheet of any length.
    ///
    /// # Errors
    /// Refused 12, 1 to 6, 8 to 10.
    pub fn read(text: &[u8]) -> Result<Sheet, Refused> {
        // a number takes 16 bytes: where the text is too short for the numbers of its header, it is refused by 12 before their length counts
        let mut numbers = vec![0; sheet_numbers(text).min(text.len() / 16)];
        let (sizes, cut) = read_sheet(text, &mut numbers)?;
        Ok(Sheet { sizes, cut, numbers })
    }

    /// The text of the sheet: the one that [`Sheet::read`] takes for it.
    ///
    /// # Errors
    /// Refused 1 to 10.
    pub fn write(&self) -> Result<Vec<u8>, Refused> {
        // a number takes at most 17 bytes, the header 289: where the numbers are too few for the sizes they are refused by 7 before the
        // length of the text counts
        let mut text = vec![0; sheet_bytes(self.sizes, self.cut).min(289 + 17 * self.numbers.len())];
        write_sheet(self.sizes, self.cut, &self.numbers, &mut text)?;
        Ok(text)
    }

    /// The lists of the sheet.
    #[must_use]
    pub fn proof(&self) -> Proof<'_> {
        Proof::of_numbers(self.sizes, &self.numbers)
    }
}

/// The verdict on a sheet of at most 65536 bytes, as the program prints it.
///
/// # Errors
/// Refused 12, 1 to 6, 8 to 10, 15.
pub fn judge_sheet(text: &[u8]) -> Result<Verdict, Refused> {
    raw::lizkarg_judge_sheet(text).judged()
}

/// How many numbers a sheet with this header holds after it; 0 where the header is refused.
#[must_use]
pub fn sheet_numbers(text: &[u8]) -> usize {
    raw::lizkarg_sheet_numbers(text)
}

/// The header of a sheet; the numbers after it are written to `numbers`, whose length is `sheet_numbers(text)`. [`Sheet::read`] has a list of its own.
///
/// # Errors
/// Refused 12, 1 to 6, 7 to 10; then nothing is written.
pub fn read_sheet(text: &[u8], numbers: &mut [i32]) -> Result<(Sizes, Cut), Refused> {
    let header = raw::lizkarg_read_sheet(text, numbers);
    header.answer.written()?;
    let raw::Header { d, n, r, k, l, w, kappa, kappa1, kappa2, b, b1, b2, t1, t2, nu, mu, bound, target, .. } = header;
    Ok((Sizes { d, n, r, k, l, w, kappa, kappa1, kappa2, z: ZDigits::Two(b), b1, b2, t1, t2, bound, target }, Cut { nu, mu }))
}

/// How many bytes the text of a sheet of these sizes has; 0 where they are refused, by 1 to 6, which sizes of one z digit are.
#[must_use]
pub fn sheet_bytes(sizes: Sizes, cut: Cut) -> usize {
    raw::lizkarg_sheet_bytes(sizes.raw(), cut.nu, cut.mu)
}

/// Writes a sheet to the first [`sheet_bytes`] bytes of `text`, and answers their number; those past them stay as they are. `numbers` are all
/// numbers after the header, in the sheet's order. Sizes of one z digit are refused by 4 if not by 1 to 3. [`Sheet::write`] and [`Proof::write_sheet`] make a text of their own.
///
/// # Errors
/// Refused 1 to 10; 13 where `text` is too short. Then nothing is written.
pub fn write_sheet(sizes: Sizes, cut: Cut, numbers: &[i32], text: &mut [u8]) -> Result<usize, Refused> {
    let written = raw::lizkarg_write_sheet(sizes.raw(), cut.nu, cut.mu, numbers, text);
    written.answer.written().map(|()| written.length)
}
