//! Holds the proved writer, and the proved reading of a form, to what must come of them.

use crate::c_form::Form;
use crate::memory::{first_unlike, inside, GUARD_BYTES, NOT_CALLED};
use crate::proved;
use crate::random::Random;

/// What writing must give: the bytes, or the number of a refusal.
pub type Written = Result<Vec<u8>, u8>;

/// What a writing is handed. The table's bytes and their number lie between guards.
#[derive(Clone, PartialEq)]
struct Destination {
    form: Form,
    table: Vec<u8>,
    written: [usize; 3],
    returned: u8,
}

/// Writes the form with so many bytes lent; an error tells where what came of it, or any byte, is not
/// what it must be. This is done twice, the second time with every bit of the bytes the other way
/// round, so that no byte that is written can look as if it were untouched.
pub fn write(
    form: &Form,
    capacity: usize,
    must: &Written,
    random: &mut Random,
) -> Result<(), String> {
    let mut before = Destination {
        form: *form,
        table: random.bytes(capacity + 2 * GUARD_BYTES),
        written: [(); 3].map(|()| random.draw() as usize),
        returned: NOT_CALLED,
    };
    for _ in 0..2 {
        let (must, got) = (before.clone().after(must), before.clone().called());
        if must != got {
            return Err(format!("{capacity} bytes lent to write\n{}", must.unlike(&got)));
        }
        before.table.iter_mut().for_each(|byte| *byte = !*byte);
        before.written[1] = !before.written[1];
    }
    Ok(())
}

impl Destination {
    fn called(mut self) -> Destination {
        let table = inside(&mut self.table, GUARD_BYTES);
        self.returned = proved::write(&self.form, table, &mut self.written[1]);
        self
    }

    fn after(mut self, must: &Written) -> Destination {
        self.returned = match must {
            Err(number) => *number,
            Ok(bytes) => {
                inside(&mut self.table, GUARD_BYTES)[..bytes.len()].copy_from_slice(bytes);
                self.written[1] = bytes.len();
                proved::OK
            }
        };
        self
    }

    /// Tells where another is not the same.
    fn unlike(&self, got: &Destination) -> String {
        let numbers = |this: &Destination| format!("{}, written {:?}", this.returned, this.written);
        let mut text = format!("must return {}\ngot         {}", numbers(self), numbers(got));
        text += &first_unlike("byte", GUARD_BYTES, &self.table, &got.table);
        if self.form != got.form {
            text += "\nthe form was touched";
        }
        text
    }
}

/// What a reading is handed. The table's bytes and the form lie between guards.
#[repr(C)]
#[derive(Clone, PartialEq)]
struct Source {
    low: [u8; GUARD_BYTES],
    form: Form,
    high: [u8; GUARD_BYTES],
    table: Vec<u8>,
    returned: u8,
}

/// Reads the table into a form; an error tells where what came of it, or any byte, is not what it must
/// be. This is done twice, as above.
pub fn read(table: &[u8], must: &Result<Form, u8>, random: &mut Random) -> Result<(), String> {
    let [low, high] = [(); 2].map(|()| [(); GUARD_BYTES].map(|()| random.draw() as u8));
    let table = [&low, table, &high].concat();
    let mut before = Source { low, form: Form::noise(random), high, table, returned: NOT_CALLED };
    for _ in 0..2 {
        let (mut must, mut got) = (before.clone().after(must), before.clone().called());
        if must != got {
            return Err(must.unlike(&mut got));
        }
        before.form.bytes_mut().iter_mut().for_each(|byte| *byte = !*byte);
    }
    Ok(())
}

impl Source {
    fn called(mut self) -> Source {
        self.returned = proved::read(inside(&mut self.table, GUARD_BYTES), &mut self.form);
        self
    }

    fn after(mut self, must: &Result<Form, u8>) -> Source {
        match must {
            Err(number) => self.returned = *number,
            Ok(form) => (self.form, self.returned) = (*form, proved::OK),
        }
        self
    }

    /// Tells where another is not the same.
    fn unlike(&mut self, got: &mut Source) -> String {
        let mut text = format!("reading must return {}, returned {}", self.returned, got.returned);
        text += &first_unlike("form byte", 0, self.form.bytes_mut(), got.form.bytes_mut());
        text += &first_unlike("table byte", GUARD_BYTES, &self.table, &got.table);
        if (self.low, self.high) != (got.low, got.high) {
            text += "\na byte beside the form was touched";
        }
        text
    }
}
