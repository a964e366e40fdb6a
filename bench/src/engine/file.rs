//! The basis file: the blocks of a data run, each a number, data and a check.
use super::form::{Form, TABLES};
use super::layout::*;
use super::refusal::Refusal;
use super::run::Run;

/// The sum of the block's first 127 words, each times its place 1 to 127, modulo 2^32.
#[inline]
fn block_check(block: &[u8; BLOCK_LENGTH]) -> u32 {
    let (words, _) = block[..BLOCK_LENGTH - 4].as_chunks();
    let terms = words.iter().zip(1u32..).map(|(&word, place)| place.wrapping_mul(u32::from_le_bytes(word)));
    terms.fold(0, u32::wrapping_add)
}

/// The block that stands at this place of a basis file or of a history.
pub(super) fn check_block(number: usize, block: &[u8; BLOCK_LENGTH]) -> Result<(), Refusal> {
    if signed(block, BLOCK_LENGTH - 4) as u32 != block_check(block) {
        return Err(Refusal::block_check(number));
    }
    if short(block, 0) != number as u32 {
        return Err(Refusal::block_number(number));
    }
    Ok(())
}

/// The bytes that reading a file of this length needs: of one that has no form, those of the old form.
pub fn run_needed(file_length: usize) -> usize {
    Form::of_file(file_length).unwrap_or(Form::Mpb1).run_length()
}

/// The bytes that writing a run of this length needs.
pub fn file_needed(run_length: usize) -> usize {
    Form::of_run(run_length).unwrap_or(Form::Mpb1).file_length()
}

/// The first so many bytes of a lent output, which must not be shorter.
pub(super) fn lent_output(output: &mut [u8], needed: usize) -> Result<&mut [u8], Refusal> {
    output.get_mut(..needed).ok_or(Refusal::output(needed))
}

/// Joins the data of a file's blocks in `run`, if the file and what it holds are accepted.
pub fn read_basis(file: &[u8], run: &mut [u8]) -> Result<(), Refusal> {
    let run = lent_output(run, run_needed(file.len()))?;
    if Form::of_file(file.len()).is_none() {
        return Err(Refusal::length());
    }
    let mut joined = [0u8; Form::Mpb2.run_length()];
    let joined = &mut joined[..run.len()];
    let blocks = file.as_chunks().0.iter().enumerate();
    for ((number, block), data) in blocks.zip(joined.chunks_exact_mut(BLOCK_DATA)) {
        check_block(number, block)?;
        data.copy_from_slice(&block[2..2 + BLOCK_DATA]);
    }
    Run::accept(joined)?;
    run.copy_from_slice(joined);
    Ok(())
}

/// Writes an accepted run as a file of its own form.
pub fn write_basis(run: &[u8], file: &mut [u8]) -> Result<(), Refusal> {
    let file = lent_output(file, file_needed(run.len()))?;
    put_blocks(Run::accept(run)?.bytes, file);
    Ok(())
}

/// Writes an accepted run of either form as a file of the old form, if every P is a whole per cent.
pub fn write_old_form(run: &[u8], file: &mut [u8]) -> Result<(), Refusal> {
    let file = lent_output(file, Form::Mpb1.file_length())?;
    let run = Run::accept(run)?;
    match run.form {
        Form::Mpb1 => put_blocks(run.bytes, file),
        Form::Mpb2 => put_blocks(&in_old_form(&run)?, file),
    }
    Ok(())
}

fn put_blocks(run: &[u8], file: &mut [u8]) {
    for ((number, data), block) in (0u16..).zip(run.chunks_exact(BLOCK_DATA)).zip(file.as_chunks_mut().0) {
        block[..2].copy_from_slice(&number.to_le_bytes());
        block[2..2 + BLOCK_DATA].copy_from_slice(data);
        let check = block_check(block);
        block[BLOCK_LENGTH - 4..].copy_from_slice(&check.to_le_bytes());
    }
}

/// The same fields in the old form, or 17 at the first P that is no whole per cent.
fn in_old_form(run: &Run) -> Result<[u8; Form::Mpb1.run_length()], Refusal> {
    let (own, old) = (run.form, Form::Mpb1);
    let mut fields = [0; Form::Mpb1.run_length()];
    fields[..FIRST_TABLE].copy_from_slice(&run.bytes[..FIRST_TABLE]);
    fields[..4].copy_from_slice(&old.mark());
    for table in TABLES {
        let entries = &mut fields[old.stretch(table)];
        if own.width(table) == old.width(table) {
            entries.copy_from_slice(run.stretch(table));
            continue;
        }
        for (index, entry) in entries.iter_mut().enumerate() {
            let place = own.offset(table) + own.width(table) * index;
            *entry = per_cents(short(run.bytes, place)).ok_or(Refusal::proportion(place))?;
        }
    }
    Ok(fields)
}

/// Of an accepted P in hundredths, which is at most 150 per cent.
fn per_cents(proportion: u32) -> Option<u8> {
    let hundredths = u32::from(HUNDREDTHS);
    proportion.is_multiple_of(hundredths).then_some((proportion / hundredths) as u8)
}
