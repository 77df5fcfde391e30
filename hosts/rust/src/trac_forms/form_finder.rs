// Generated from crates/trac_forms/src/form_finder.rt by hosts/rust/generate, and never edited.
//! Finds forms in a space by their names.
//!
//! A `FormFinder` isn't a part of `Work`, because forms are also found while some of them are marked for
//! removal; what a `Work` keeps doesn't hold then.

use crate::trac_space::{Cell, Part, Space};
use crate::trac_store::{
    FIRST_FORM, FormCells, IndexedForms, Located, find_between_by_call, find_from_last,
};

// A search starts at the form used last only if there are at least this many forms.
pub(crate) const FEW_FORMS: u32 = 8;
// An index is made and used only if there are at least this many forms.
pub(crate) const FORMS_FOR_INDEX: u32 = 12;

// The forms of a space, to be found: how many they are, and the one used last.
pub(crate) struct FormFinder<'s, 'a> {
    space: &'s Space<'a>,
    count: u32,
    last: Located,
}

impl<'s, 'a> FormFinder<'s, 'a> {
    // Finds forms among the `count` forms of `space`, of which `last` was used last.
    #[inline(always)]
    pub(crate) fn new(space: &'s Space<'a>, count: u32, last: Located) -> FormFinder<'s, 'a>
    {
        FormFinder { space, count, last }
    }

    // The cells of the forms.
    #[inline(always)]
    fn cells(&self) -> FormCells<'_>
    {
        FormCells {
            cells: self.space.store_part(0, self.space.store_len()),
            count: self.count,
        }
    }

    // Whether the first form has the name that stands in a part of neutral. There must be a form.
    #[inline(always)]
    pub(crate) fn is_first_named(&self, part: Part) -> bool
    {
        let name = self.space.neutral_part(part.from, part.to);
        self.cells().is_named(FIRST_FORM, name)
    }

    // The form whose name stands in a part of neutral. None if no form has that name. Among many forms the
    // search starts at the one used last, since the form sought is often that one or close behind it.
    //
    // Adds to `search_cost` how many forms and slots the search looked at beyond a few.
    #[inline(always)]
    pub(crate) fn find_named(&self, part: Part, search_cost: &mut u32) -> Option<Located>
    {
        let name = self.space.neutral_part(part.from, part.to);
        self.find_by_name(name, search_cost)
    }

    // The form with this name, which needn't stand in the block. None if no form has it. Searches, and adds
    // to `search_cost`, as `find_named` does.
    #[inline(always)]
    pub(crate) fn find_by_name(&self, name: &[Cell], search_cost: &mut u32) -> Option<Located>
    {
        let count = self.count;
        if count >= FORMS_FOR_INDEX {
            return self.find_among_many(name, search_cost);
        }
        let forms = self.cells();
        if name.is_empty() {
            return forms.find_null();
        }
        if count < FEW_FORMS {
            return forms.find_between(FIRST_FORM, count, name);
        }
        find_from_last(forms.cells, self.last, count, name)
    }

    // The form whose name stands in a part of neutral. None if no form has that name. The search starts at
    // the first form, and is meant for a few forms.
    #[inline(always)]
    pub(crate) fn find_from_first(&self, part: Part) -> Option<Located>
    {
        let name = self.space.neutral_part(part.from, part.to);
        let forms = self.cells();
        if name.is_empty() {
            return forms.find_null();
        }
        forms.find_between(FIRST_FORM, self.count, name)
    }

    // The form with this name, found by the index if there is one. None if no form has it. Adds to
    // `search_cost` how many forms and slots the search looked at beyond a few.
    #[inline(always)]
    fn find_among_many(&self, name: &[Cell], search_cost: &mut u32) -> Option<Located>
    {
        let forms = self.cells();
        if self.space.index_area_len() > 0 {
            let indexed = IndexedForms::of(&forms, self.space.index_area_cells());
            return indexed.look_up(name, search_cost);
        }
        let count = self.count;
        let last = self.last;
        if name.is_empty() {
            let found = forms.find_null();
            add_search_cost(search_cost, looked_at(found, count));
            return found;
        }
        let cells = forms.cells;
        if let Some(form) = find_between_by_call(cells, count, last, count, name) {
            add_search_cost(search_cost, form.number.wrapping_sub(last.number));
            return Some(form);
        }
        let found = find_between_by_call(cells, count, FIRST_FORM, last.number, name);
        add_search_cost(
            search_cost,
            count
                .wrapping_sub(last.number)
                .saturating_add(looked_at(found, last.number)),
        );
        found
    }
}

// How many forms a search from the first form on looked at: those before the one that it found, or before
// number `end`.
#[inline]
fn looked_at(found: Option<Located>, end: u32) -> u32 {
    match found {
        Some(form) => form.number,
        None => end,
    }
}

// Adds the forms that a search looked at to its cost, but for a few: a search by an index costs these too.
#[inline]
fn add_search_cost(search_cost: &mut u32, looks: u32) {
    if looks > FEW_FORMS {
        *search_cost = search_cost.saturating_add(looks - FEW_FORMS);
    }
}
