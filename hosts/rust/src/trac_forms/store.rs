// Generated from crates/trac_forms/src/store.rt by hosts/rust/generate, and never edited.
//! Finds and reads the forms of a `Work`.
//!
//! A `Work` keeps which form was used last and where it begins. To read that form again costs no walk over
//! the others, and to read all forms in order costs one walk.

use crate::trac_forms::form_finder::{FEW_FORMS, FormFinder};
use crate::trac_forms::index::keep_index;
use crate::trac_forms::item::FormId;
use crate::trac_forms::work::Work;
use crate::trac_language::Item;
use crate::trac_space::{Cell, Part};
use crate::trac_store::{FIRST_FORM, Heads, Located, end_of, heads_of, item_in};

impl<'a> Work<'a> {
    // The finder of the forms.
    #[inline(always)]
    pub(crate) fn finder(&self) -> FormFinder<'_, 'a>
    {
        FormFinder::new(&self.space, self.count, self.last)
    }

    // Where form `k` begins in the store. Walks there from a form that doesn't stand behind it.
    fn walk(&self, from: Located, k: u32) -> u32
    {
        let space = &self.space;
        let mut start = from.start;
        for number in from.number..k {
            start = end_of(space, Located { number, start });
        }
        start
    }

    // Where form `k` begins in the store. Walks there from the form used last, or from the first form if the
    // one used last stands behind form `k`.
    #[inline]
    fn place_of(&self, k: u32) -> u32
    {
        let last = self.last;
        if last.number == k {
            last.start
        } else if last.number < k {
            self.walk(last, k)
        } else {
            self.walk(FIRST_FORM, k)
        }
    }

    // The form and where it begins. Walks there from the form used last, or from the first form if the one
    // used last stands behind it.
    #[inline(always)]
    pub(crate) fn locate(&self, form: FormId) -> Located
    {
        let start = self.place_of(form.0);
        Located {
            number: form.0,
            start,
        }
    }

    // The three head numbers of a form whose place is known.
    #[inline(always)]
    pub(crate) fn heads(&self, form: Located) -> Heads
    {
        heads_of(&self.space, form)
    }

    // Where the form's body stands in the store.
    #[inline(always)]
    pub(crate) fn body_place(&self, form: FormId) -> Part
    {
        let at = self.locate(form);
        let heads = heads_of(&self.space, at);
        let from = at.start + 3 + heads.name;
        let to = from + heads.body;
        Part { from, to }
    }

    /// How many forms there are.
    pub fn forms(&self) -> u32
    {
        self.count
    }

    /// The form at place `k` of the list, from 0, in the order in which the forms were defined.
    /// None past the last.
    pub fn form(&mut self, k: u32) -> Option<FormId>
    {
        if k >= self.count {
            return None;
        }
        let form = FormId(k);
        self.last = self.locate(form);
        Some(form)
    }

    /// The form whose name stands in neutral from place `a` up to `b`. None if no form has that name. The
    /// form found becomes the one used last.
    #[inline(always)]
    pub fn find(&mut self, a: u32, b: u32) -> Option<FormId>
    {
        if self.count >= FEW_FORMS {
            return self.find_among_more(a, b);
        }
        if self.count > 0 && self.finder().is_first_named(Part { from: a, to: b }) {
            self.last = FIRST_FORM;
            return Some(FormId(0));
        }
        self.find_among_few(a, b)
    }

    // Does what `find` does where there are a few forms at most.
    #[inline(never)]
    fn find_among_few(&mut self, a: u32, b: u32) -> Option<FormId>
    {
        let form = self.finder().find_from_first(Part { from: a, to: b })?;
        self.last = form;
        Some(FormId(form.number))
    }

    // Does what `find` does where there are more than a few forms, and perhaps enough for an index.
    #[inline(never)]
    fn find_among_more(&mut self, a: u32, b: u32) -> Option<FormId>
    {
        self.keep_index();
        let form = self.find_named(Part { from: a, to: b })?;
        self.last = form;
        Some(FormId(form.number))
    }

    // The form whose name stands in a part of neutral, and where it begins. None if no form has that name.
    // What the search costs is noted.
    #[inline(always)]
    pub(crate) fn find_named(&mut self, part: Part) -> Option<Located>
    {
        let finder = FormFinder::new(&self.space, self.count, self.last);
        finder.find_named(part, &mut self.search_cost)
    }

    /// The characters of the form's name, not copied.
    pub fn name(&self, form: FormId) -> &[Cell]
    {
        let at = self.locate(form);
        let heads = heads_of(&self.space, at);
        let from = at.start + 3;
        self.space.store_part(from, from + heads.name)
    }

    /// How many items the form's body has.
    #[inline]
    pub fn body_len(&self, form: FormId) -> u32
    {
        let at = self.locate(form);
        self.heads(at).body
    }

    /// The form's pointer: the place in its body, from 0 to its length, from which a partial call
    /// goes on (Mooers 1966).
    #[inline]
    pub fn pointer(&self, form: FormId) -> u32
    {
        let at = self.locate(form);
        self.heads(at).pointer
    }

    /// The item at place `i` of the form's body, from 0.
    #[inline]
    pub fn item(&self, form: FormId, i: u32) -> Item
    {
        let body = self.body_place(form);
        item_in(&self.space, body.from + i)
    }

    // Builds the index of the forms once searches have cost as much.
    #[inline]
    pub(crate) fn keep_index(&mut self)
    {
        keep_index(&mut self.space, self.count, &mut self.search_cost);
    }
}
