// Generated from crates/trac_laws/src/table.rt by hosts/rust/generate, and never edited.
//! That the table of functions is true: a law for each column, for all calls in all worlds. Each function proves its
//! law and does nothing.

/// How many arguments a function uses: what stands behind them makes no difference.
pub fn uses_few()
{}

/// Which forms a call concerns: all others are as they were.
pub fn leaves_others()
{}

/// A call that needs a form does nothing where there is none of that name, and has a null value.
pub fn needs_form()
{}

/// A function that changes no form leaves all of them.
pub fn leaves_forms()
{}

/// What of a form is the value: all of it from its pointer on, a part of it by which its pointer moves, or
/// nothing, whatever the bodies are.
pub fn gives_forms()
{}

/// The default value is that argument of which the table says so; it is given in some call, and no other function has
/// one.
pub fn gives_default()
{}

/// A function that chooses has its third or its fourth argument as its value.
pub fn chooses()
{}

/// A function that doesn't read leaves the input.
pub fn leaves_input()
{}

/// A function that doesn't print prints nothing.
pub fn prints_nothing()
{}

/// A function that doesn't change the meta character leaves it.
pub fn leaves_meta()
{}

/// Just the function that ends the run halts it.
pub fn ends_only()
{}
