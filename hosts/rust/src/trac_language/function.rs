// Generated from crates/trac_language/src/function.rt by hosts/rust/generate, and never edited.
//! The functions of the language.

use crate::trac_language::arith::Arith;

/// A function that a call can name (Mooers 1966 and 1972).
#[derive(Clone, Copy, Debug)]
pub enum Function {
    /// `rs`: gives the input up to the meta character.
    ReadString,
    /// `rc`: gives the next character of the input.
    ReadCharacter,
    /// `cm`: makes a character the meta character.
    ChangeMeta,
    /// `ps`: prints a text.
    PrintString,
    /// `hl`: ends the run.
    Halt,
    /// `ds`: makes a text a form.
    DefineString,
    /// `ss`: makes texts in a form gaps.
    SegmentString,
    /// `dd`: removes the forms that its arguments name.
    DeleteDefinition,
    /// `da`: removes all forms.
    DeleteAll,
    /// `ln`: gives the names of all forms.
    ListNames,
    /// `pf`: displays a form.
    PrintForm,
    /// `cl`: gives a form with its gaps filled.
    CallForm,
    /// `cs`: gives a form up to its next gap.
    CallSegment,
    /// `cc`: gives the next character of a form.
    CallCharacter,
    /// `cn`: gives a number of characters of a form.
    CallNumber,
    /// `in`: gives a form up to a text.
    InitialPart,
    /// `cr`: sets the pointer of a form back to the start.
    CallRestore,
    /// `eq`: asks whether two texts are the same.
    Equal,
    /// `gr`: asks whether a number is greater than another.
    Greater,
    /// `ad`, `su`, `ml` or `dv`: computes with two numbers.
    Arithmetic(Arith),
    /// `bu`: gives the union of two bit strings.
    Union,
    /// `bi`: gives the intersection of two bit strings.
    Intersection,
    /// `bc`: gives the complement of a bit string.
    Complement,
    /// `bs`: shifts a bit string.
    Shift,
    /// `br`: rotates a bit string.
    Rotate,
}
