//! SPECIFICATION 10: a writer and a reader.
use crate::lists::{Lists, Sizes, SIZES};
use crate::refusals::{self, row};
use crate::ring::MOST;

/// "Each number is decimal, right-justified with blanks in 16 columns".
const COLUMNS: usize = 16;

/// The number of fields of each line after the header.
fn line_widths(s: &Sizes) -> Vec<usize> {
    let n = s.lengths();
    let elements = |numbers: usize| vec![s.d; numbers / s.d];
    let constant_term = [elements(s.function()), vec![1]].concat();
    [
        elements(n.a_matrix + n.b_matrix + n.c_matrix + n.d_matrix + n.whole),
        constant_term.repeat(s.l),
        elements(n.u1 + n.projections),
        vec![1; n.p + n.psi + n.omega],
        elements(n.second_b + n.alpha + n.delta + n.u2 + n.c + n.opening),
    ]
    .concat()
}

/// The bytes of a sheet of these sizes.
pub fn bytes(s: &Sizes) -> usize {
    line_widths(s).iter().chain(&[SIZES]).map(|width| COLUMNS * width + 1).sum()
}

/// A field of any number.
pub fn field(v: impl std::fmt::Display) -> Vec<u8> {
    format!("{v:>COLUMNS$}").into_bytes()
}

/// "So numbers have one text": the header and these numbers after it, laid on lines.
fn text_of(s: &Sizes, numbers: &[i32]) -> Vec<u8> {
    let mut text = s.header().map(field).concat();
    text.push(b'\n');
    let mut rest = numbers;
    for width in line_widths(s) {
        let (line, others) = rest.split_at(width);
        text.extend(line.iter().flat_map(field));
        text.push(b'\n');
        rest = others;
    }
    assert!(rest.is_empty());
    text
}

/// The sheet of lists, whether or not the reader takes their numbers.
pub fn write(s: &Sizes, l: &Lists<Vec<i32>>) -> Vec<u8> {
    text_of(s, &l.in_sheet_order())
}

/// How many bytes the text of a sheet of these sizes has; 0 where they are refused (1 to 6). Sizes of one z digit are refused: a sheet has two.
pub fn bytes_of(s: &Sizes) -> usize {
    refusals::sizes(&s.on_sheet(), true).map_or(0, |()| bytes(s))
}

/// "turns the numbers of a sheet into its one text, into a lent buffer, and answers the text's length": 1 to 6 as for a header, 7 for the count of
/// numbers, 8 to 10 for the numbers, "13, after 11, exactly when the buffer is shorter than the text". "Bytes past the text are untouched."
pub fn write_into(s: &Sizes, numbers: &[i32], text: &mut [u8]) -> Result<usize, u8> {
    refusals::sizes(&s.on_sheet(), true)?;
    row(7, numbers.len() == line_widths(s).iter().sum::<usize>())?;
    refusals::numbers(s, &Lists::from_sheet_order(s, numbers))?;
    let length = bytes(s);
    row(13, text.len() >= length)?;
    text[..length].copy_from_slice(&text_of(s, numbers));
    Ok(length)
}

/// One field: blanks, then a minus or none, then digits without a leading zero; no minus zero.
fn number(field: &[u8]) -> Option<i64> {
    let bare = std::str::from_utf8(field).ok()?.trim_start_matches(' ');
    let digits = bare.strip_prefix('-').unwrap_or(bare);
    if digits.is_empty() || !digits.bytes().all(|c| c.is_ascii_digit()) || digits.len() > 1 && digits.starts_with('0') || bare == "-0" {
        return None;
    }
    bare.parse().ok()
}

/// The numbers of the line of `width` fields at `at`, which moves to the next line; 12 where it is broken.
fn line(text: &[u8], at: &mut usize, width: usize) -> Result<Vec<i64>, u8> {
    let end = *at + COLUMNS * width;
    row(12, text.get(end) == Some(&b'\n'))?;
    let numbers: Option<Vec<i64>> = text[*at..end].chunks(COLUMNS).map(number).collect();
    *at = end + 1;
    numbers.ok_or(12)
}

/// The sizes, and where the other lines begin. A negative number is none of the sizes' and beyond each limit, as the largest number is.
fn read_header(text: &[u8]) -> Result<(Sizes, usize), u8> {
    let mut at = 0;
    let header: [i64; SIZES] = line(text, &mut at, SIZES)?.try_into().unwrap();
    let s = Sizes::from_header(header.map(|v| u64::try_from(v).unwrap_or(u64::MAX)));
    refusals::sizes(&s, true)?;
    Ok((s, at))
}

/// How many numbers the header's sizes give; 0 where the header is refused.
pub fn count(text: &[u8]) -> usize {
    read_header(text).map_or(0, |(s, _)| line_widths(&s).iter().sum())
}

/// "The header's layout is read first (12), then 1 to 6, then the other lines (12), then 8 to 10." Row 7 stands before 8: `length` is that of
/// the slice that takes the numbers after the header; None where there is none to test.
pub fn read(text: &[u8], length: Option<usize>) -> Result<(Sizes, Vec<i32>), u8> {
    let (s, mut at) = read_header(text)?;
    let mut numbers = vec![];
    for width in line_widths(&s) {
        numbers.extend(line(text, &mut at, width)?);
    }
    row(12, at == text.len())?;
    row(7, length.is_none_or(|length| length == numbers.len()))?;
    row(8, numbers.iter().all(|v| v.abs() <= MOST))?;
    let numbers: Vec<i32> = numbers.iter().map(|v| *v as i32).collect();
    refusals::numbers(&s, &Lists::from_sheet_order(&s, &numbers))?;
    Ok((s, numbers))
}

/// "at most 65536 bytes (longer: 12, before all else)": the sizes and lists of a sheet that the program judges.
pub fn judged(text: &[u8]) -> Result<(Sizes, Lists<Vec<i32>>), u8> {
    row(12, text.len() <= 65536)?;
    let (s, numbers) = read(text, None)?;
    Ok((s, Lists::from_sheet_order(&s, &numbers)))
}
