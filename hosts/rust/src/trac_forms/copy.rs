// Generated from crates/trac_forms/src/copy.rt by hosts/rust/generate, and never edited.
//! Copies the names and bodies of forms to the end of neutral.

use crate::trac_forms::item::FormId;
use crate::trac_forms::work::Work;
use crate::trac_store::heads_of;

impl<'a> Work<'a> {
    /// Copies the form's name to the end of neutral. False, with nothing changed, if it doesn't fit.
    pub fn copy_name(&mut self, form: FormId) -> bool
    {
        let at = self.locate(form);
        let heads = heads_of(&self.space, at);
        let end = at.start + 3 + heads.name;
        self.space.copy_store(at.start + 3, end)
    }

    /// Copies the characters of the form's body from place `a` up to `b` to the end of neutral. No gap may
    /// stand among them. False, with nothing changed, if they don't fit.
    #[inline]
    pub fn copy_body(&mut self, form: FormId, a: u32, b: u32) -> bool
    {
        let body = self.body_place(form);
        self.space.copy_store(body.from + a, body.from + b)
    }
}
