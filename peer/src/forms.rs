//! Holds the proved writer, and the proved reading of a form, to the independent ones: on fields that are
//! drawn, and on the tables of the cases.

use crate::c_form;
use crate::drawn_form::drawn_form;
use crate::form::Form;
use crate::generate::Case;
use crate::random::Random;
use crate::table::read_form;
use crate::writer;
use crate::writing::{self, Written};
use std::collections::BTreeMap;

/// What was seen.
#[derive(Default)]
pub struct Tally {
    written: u64,
    /// Of those written: with a condition that was given in the further place alone.
    moved: u64,
    /// Of those written: refused by 7 when they are read.
    shut_at_zero: u64,
    refused: BTreeMap<u8, u64>,
    tables: u64,
    tables_refused: u64,
}

impl Tally {
    pub fn print(&self) {
        println!("forms written: {}", self.written);
        println!("  with an only condition in the further place: {}", self.moved);
        println!("  refused by 7 when read: {}", self.shut_at_zero);
        self.refused.iter().for_each(|(number, count)| println!("forms refused {number}: {count}"));
        println!("tables read and written, twice: {}", self.tables);
        println!("  refused when read: {}", self.tables_refused);
    }
}

#[cfg(test)]
impl Tally {
    /// Whether every answer was seen, of forms and of tables.
    pub fn is_varied(&self) -> bool {
        let written = [self.written, self.moved, self.shut_at_zero];
        let tables = [self.tables, self.tables_refused];
        self.refused.keys().eq(&[2, 3, 4, 5, 11])
            && written.iter().chain(&tables).all(|&count| count > 50)
    }
}

/// Writes fields that belong to the case, and the fields of its table; an error tells a difference.
pub fn check(case: &Case, tally: &mut Tally) -> Result<(), String> {
    let mut random = case.random.clone();
    let form = drawn_form(&mut random);
    check_form(&form, tally, &mut random).map_err(|text| format!("{text}\nof {form:?}"))?;
    check_table(&case.table, tally, &mut random).map_err(|text| format!("{text}\nof the table"))
}

fn check_form(form: &Form, tally: &mut Tally, random: &mut Random) -> Result<(), String> {
    let capacity = capacity(&writer::write(form, usize::MAX), random);
    let must = writer::write(form, capacity);
    // What is no field is anything.
    writing::write(&given(form, c_form::Form::noise(random))?, capacity, &must, random)?;
    match must {
        Err(number) => *tally.refused.entry(number).or_default() += 1,
        Ok(bytes) => {
            let as_read = form.as_read();
            let is_moved =
                !form.modes.starts_with(&as_read.modes) || !form.moves.starts_with(&as_read.moves);
            tally.written += 1;
            tally.moved += u64::from(is_moved);
            tally.shut_at_zero += u64::from(!is_written_again(&bytes, &as_read, random)?);
        }
    }
    Ok(())
}

/// Reads the table and, if it is accepted, writes, reads and writes it.
fn check_table(table: &[u8], tally: &mut Tally, random: &mut Random) -> Result<(), String> {
    let Ok(form) = read(table, random)? else {
        tally.tables_refused += 1;
        return Ok(());
    };
    tally.tables += 1;
    let bytes = write(&form, random)?;
    if !is_written_again(&bytes, &form.as_read(), random)? {
        return Err(format!("it was read, but what was written is not: {bytes:02x?}"));
    }
    Ok(())
}

/// Whether what was written is read. Then it must be read as these fields and written as before. It may
/// be refused by 7 alone, as a writer does not judge what holds at zero.
fn is_written_again(bytes: &[u8], must: &Form, random: &mut Random) -> Result<bool, String> {
    let form = match read(bytes, random)? {
        Ok(form) if form == *must => form,
        Err(7) => return Ok(false),
        other => {
            return Err(format!("written {bytes:02x?}, must be read as {must:?}, is {other:?}"))
        }
    };
    let again = write(&form, random)?;
    if again != bytes {
        return Err(format!("written {bytes:02x?}, and then {again:02x?}"));
    }
    Ok(true)
}

/// Reads with both.
pub fn read(table: &[u8], random: &mut Random) -> Result<Result<Form, u8>, String> {
    let form = read_form(table);
    let must = match &form {
        Ok(form) => Ok(given(form, c_form::Form::zero())?),
        Err(number) => Err(*number),
    };
    writing::read(table, &must, random)?;
    Ok(form)
}

/// Writes fields that were read with both; enough bytes are lent.
fn write(form: &Form, random: &mut Random) -> Result<Vec<u8>, String> {
    let given = given(form, c_form::Form::zero())?;
    let written = writer::write(&given.fields(), usize::MAX);
    let length = written.as_ref().map_or(0, Vec::len);
    let capacity = random.pick(&[length, length + 1, LONGEST]);
    writing::write(&given, capacity, &written, random)?;
    written.map_err(|number| format!("it was read, but is not written: {number}"))
}

/// The fields in a form of C, put onto this one.
pub fn given(form: &Form, onto: c_form::Form) -> Result<c_form::Form, String> {
    onto.with(form).ok_or_else(|| format!("a condition of code 0: {form:?}"))
}

/// The most bytes that a table has.
const LONGEST: usize = 919;

/// Mostly just enough bytes, else about as many, or any number, or none.
fn capacity(unlimited: &Written, random: &mut Random) -> usize {
    let any = random.below(1_000) as usize;
    let Ok(bytes) = unlimited else { return random.pick(&[0, any, LONGEST]) };
    match random.below(10) {
        0 => bytes.len() - 1,
        1 => bytes.len() + 1,
        2 => 0,
        3 => any,
        4 | 5 => LONGEST,
        _ => bytes.len(),
    }
}
