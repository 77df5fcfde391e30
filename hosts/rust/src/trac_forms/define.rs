// Generated from crates/trac_forms/src/define.rt by hosts/rust/generate, and never edited.
//! Defines and removes forms, and moves their pointers.

use crate::trac_forms::form_writing::store_form;
use crate::trac_forms::index::{clear_index, index_last, unindex};
use crate::trac_forms::item::{FormId, Full};
use crate::trac_forms::work::Work;
use crate::trac_space::{Cell, Part};
use crate::trac_store::{FIRST_FORM, Located, end_of, heads_of};

impl<'a> Work<'a> {
    /// Makes a form of two parts of neutral, a name and a text, each from a place up to another (Mooers
    /// 1966). It becomes the last form, with pointer 0; an older form of that name is removed. The parts stay
    /// in neutral.
    ///
    /// `Full`, with nothing changed, if 3 cells, the name and the text don't fit while the older form is
    /// still there. How many cells a form takes is this processor's own choice.
    pub fn define(&mut self, name: (u32, u32), text: (u32, u32)) -> Result<(), Full>
    {
        let name = Part {
            from: name.0,
            to: name.1,
        };
        let text = Part {
            from: text.0,
            to: text.1,
        };
        self.keep_index();
        let found = self.find_named(name);
        if self.replace_last(found, name, text) {
            return Ok(());
        }
        self.define_form(found, name, text)
    }

    // Writes the text over the body of the form that was found, if that is the last form and its body is as
    // long as the text. False, with nothing changed, if it isn't, or if a new form wouldn't fit.
    fn replace_last(&mut self, found: Option<Located>, name: Part, text: Part) -> bool
    {
        let count = self.count;
        let Some(form) = found else {
            return false;
        };
        let len = text.to - text.from;
        if form.number + 1 < count || self.heads(form).body != len {
            return false;
        }
        if self.space.free() < 3 + (name.to - name.from) + len {
            return false;
        }
        self.write_body(form, text);
        true
    }

    // Replaces the form's body by a text of the same length, and sets its pointer to 0.
    fn write_body(&mut self, form: Located, text: Part)
    {
        let heads = heads_of(&self.space, form);
        let body = form.start + 3 + heads.name;
        self.space.write_part(body, text.from, text.to);
        self.space
            .write_store(form.start + 1, Cell::Head(text.to - text.from));
        self.space.write_store(form.start + 2, Cell::Head(0));
        self.last = form;
    }

    // Appends a form of two parts of neutral, after it has removed the older form of that name, if one was
    // found. `Full`, with nothing changed, if the new form doesn't fit beside the older one.
    fn define_form(&mut self, found: Option<Located>, name: Part, text: Part) -> Result<(), Full>
    {
        let free = self.space.free();
        let need = 3 + (name.to - name.from) + (text.to - text.from);
        if free < need {
            return Err(Full);
        }
        self.remove_found(found, name);
        self.append(name, text);
        Ok(())
    }

    // Removes the form that was found for a name, if one was.
    fn remove_found(&mut self, found: Option<Located>, name: Part)
    {
        if let Some(form) = found {
            self.remove(form);
        }
    }

    // Appends a form of two parts of neutral, and enters it into the index if there is one.
    fn append(&mut self, name: Part, text: Part)
    {
        let form = Located {
            number: self.count,
            start: self.space.store_len(),
        };
        store_form(&mut self.space, name, text);
        index_last(&mut self.space, form);
        self.count += 1;
        self.last = form;
    }

    // Removes the form from the list, the store and the index.
    pub(crate) fn remove(&mut self, form: Located)
    {
        unindex(&mut self.space, form, self.count);
        let end = end_of(&self.space, form);
        self.space.remove_store(form.start, end);
        self.count -= 1;
        self.last = FIRST_FORM;
    }

    /// Removes the form. The others keep their order.
    pub fn delete(&mut self, form: FormId)
    {
        let at = self.locate(form);
        self.remove(at);
    }

    /// Removes all forms.
    pub fn delete_all(&mut self)
    {
        let end = self.space.store_len();
        self.space.remove_store(0, end);
        clear_index(&mut self.space, self.count);
        self.count = 0;
        self.last = FIRST_FORM;
    }

    /// Sets the form's pointer to a place of its body, from 0 to its length.
    pub fn set_pointer(&mut self, form: FormId, pointer: u32)
    {
        let at = self.locate(form);
        self.space.write_store(at.start + 2, Cell::Head(pointer));
        self.last = at;
    }
}
