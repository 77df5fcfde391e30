// Generated from crates/trac_store/src/form_cells.rt by hosts/rust/generate, and never edited.
//! Searches the cells of forms for the form of a name.

use crate::trac_store::form_heads::number_in_head;
use crate::trac_store::located::{FIRST_FORM, Located};
use crate::trac_space::{Cell, byte_in};

// Whether two texts of the same length have the same characters.
#[inline]
pub(crate) fn is_text(cells: &[Cell], text: &[Cell]) -> bool
{
    for i in 0..text.len() {
        if byte_in(&cells[i]) != byte_in(&text[i]) {
            return false;
        }
    }
    true
}

// Whether two texts of the same length have the same characters. Compares the last ones first: most names
// differ there.
#[inline(always)]
fn is_text_back(cells: &[Cell], text: &[Cell]) -> bool
{
    let mut left = text.len();
    while left > 0 {
        if byte_in(&cells[left - 1]) != byte_in(&text[left - 1]) {
            return false;
        }
        left -= 1;
    }
    true
}

// Whether the `len` cells from place `from` on are the text, whose last character is `last`. Compares the
// last characters first: most names differ there.
#[inline]
fn is_text_at(cells: &[Cell], from: usize, len: usize, text: &[Cell], last: u8) -> bool
{
    if len != text.len() || byte_in(&cells[from + len - 1]) != last {
        return false;
    }
    is_text(&cells[from..from + len], text)
}

/// The cells of forms, one form behind the other, and how many forms they are.
pub struct FormCells<'s> {
    pub cells: &'s [Cell],
    pub count: u32,
}

impl<'s> FormCells<'s> {
    /// Whether the form has the name.
    #[inline(always)]
    pub fn is_named(&self, form: Located, name: &[Cell]) -> bool
    {
        let cells = self.name_cells(form);
        cells.len() == name.len() && is_text_back(cells, name)
    }

    // The cells of the form's name.
    #[inline(always)]
    pub(crate) fn name_cells(&self, form: Located) -> &[Cell]
    {
        let cells = self.cells;
        let start = form.start as usize;
        let len = number_in_head(cells[start]) as usize;
        &cells[start + 3..start + 3 + len]
    }

    /// The form with the null name. None if no form has it.
    pub fn find_null(&self) -> Option<Located>
    {
        let cells = self.cells;
        let mut start = 0;
        for k in 0..self.count {
            let len = number_in_head(cells[start]) as usize;
            if len == 0 {
                return Some(Located {
                    number: k,
                    start: start as u32,
                });
            }
            start += 3 + len + number_in_head(cells[start + 1]) as usize;
        }
        None
    }

    /// The form with this name, which isn't null, among those from `from` up to number `end`. None if none of
    /// these has it.
    #[inline(always)]
    pub fn find_between(&self, from: Located, end: u32, name: &[Cell]) -> Option<Located>
    {
        let cells = self.cells;
        let last = byte_in(&name[name.len() - 1]);
        let mut at = from.start as usize + 3;
        let mut left = end - from.number;
        while left > 0 {
            let len = number_in_head(cells[at - 3]) as usize;
            if is_text_at(cells, at, len, name, last) {
                return Some(Located {
                    number: end - left,
                    start: (at - 3) as u32,
                });
            }
            at += 3 + len + number_in_head(cells[at - 2]) as usize;
            left -= 1;
        }
        None
    }
}

/// Does what `find_between` does as a function of its own, whose loop has all registers. It takes the fields
/// of a `FormCells`, which would itself be passed through memory.
#[inline(never)]
pub fn find_between_by_call(
    cells: &[Cell],
    count: u32,
    from: Located,
    end: u32,
    name: &[Cell],
) -> Option<Located>
{
    FormCells { cells, count }.find_between(from, end, name)
}

/// The form with this name, which isn't null. None if no form has it. Looks at the forms from the one used
/// last on, and then at those before it.
///
/// It takes the fields of a `FormCells`, which would itself be passed through memory.
#[inline(never)]
pub fn find_from_last(cells: &[Cell], last: Located, count: u32, name: &[Cell]) -> Option<Located>
{
    let forms = FormCells { cells, count };
    match forms.find_between(last, count, name) {
        None => forms.find_between(FIRST_FORM, last.number, name),
        found => found,
    }
}
