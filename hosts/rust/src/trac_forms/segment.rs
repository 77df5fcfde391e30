// Generated from crates/trac_forms/src/segment.rt by hosts/rust/generate, and never edited.
//! Segmenting: makes gaps in a body (Mooers 1966).

use crate::trac_forms::index::shift_starts;
use crate::trac_forms::item::FormId;
use crate::trac_forms::work::Work;
use crate::trac_space::{Cell, Part};
use crate::trac_store::segment_store;

impl<'a> Work<'a> {
    /// Replaces each occurrence of a text, a part of neutral, in the form's body by a gap of this ordinal,
    /// from the left, and sets the pointer to 0. No occurrence reaches across a gap, and a null text makes
    /// none. The cells that become free can be used at once. Takes one pass over the body.
    pub fn segment(&mut self, form: FormId, part: (u32, u32), ordinal: u32)
    {
        let at = self.locate(form);
        let body = self.body_place(form);
        let text = Part {
            from: part.0,
            to: part.1,
        };
        let end = segment_store(&mut self.space, body, text, ordinal);
        self.space
            .write_store(at.start + 1, Cell::Head(end - body.from));
        self.space.write_store(at.start + 2, Cell::Head(0));
        shift_starts(&mut self.space, form.0, self.count, body.to - end);
        self.last = at;
    }
}
