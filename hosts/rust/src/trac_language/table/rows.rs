// Generated from crates/trac_language/src/table/rows.rt by hosts/rust/generate, and never edited.
//! The rows of the table of functions.

use super::{Concerned, Facts, Given, Group, Traits};

// A function that uses two arguments, has a value, and does nothing else.
const NO_TRAITS: Traits = Traits {
    uses: Some(2),
    forms: Concerned::Nothing,
    needs_form: false,
    changes_forms: false,
    gives: Given::Nothing,
    default: None,
    chooses: false,
    reads: false,
    prints: false,
    changes_meta: false,
    ends: false,
};

// A function that takes a part of a form, with two arguments.
const PART: Traits = Traits {
    forms: Concerned::First,
    needs_form: true,
    changes_forms: true,
    gives: Given::Part,
    ..NO_TRAITS
};

// A function that computes with two numbers.
const COMPUTED: Traits = Traits {
    uses: Some(3),
    default: Some(3),
    ..NO_TRAITS
};

pub(super) const READ_STRING: Facts = Facts {
    name: b"rs",
    call: b"rs",
    title: b"read string",
    sentence: b"The value is the input up to the meta character.",
    group: Group::Devices,
    traits: Traits {
        uses: Some(0),
        reads: true,
        ..NO_TRAITS
    },
};

pub(super) const READ_CHARACTER: Facts = Facts {
    name: b"rc",
    call: b"rc",
    title: b"read character",
    sentence: b"The value is the next byte of the input.",
    group: Group::Devices,
    traits: Traits {
        uses: Some(0),
        reads: true,
        ..NO_TRAITS
    },
};

pub(super) const CHANGE_META: Facts = Facts {
    name: b"cm",
    call: b"cm,X",
    title: b"change meta",
    sentence: b"The first character of X becomes the meta character.",
    group: Group::Devices,
    traits: Traits {
        uses: Some(1),
        changes_meta: true,
        ..NO_TRAITS
    },
};

pub(super) const PRINT_STRING: Facts = Facts {
    name: b"ps",
    call: b"ps,X",
    title: b"print string",
    sentence: b"X is printed.",
    group: Group::Devices,
    traits: Traits {
        uses: Some(1),
        prints: true,
        ..NO_TRAITS
    },
};

pub(super) const HALT: Facts = Facts {
    name: b"hl",
    call: b"hl",
    title: b"halt",
    sentence: b"The run ends.",
    group: Group::Devices,
    traits: Traits {
        uses: Some(0),
        ends: true,
        ..NO_TRAITS
    },
};

pub(super) const DEFINE_STRING: Facts = Facts {
    name: b"ds",
    call: b"ds,N,X",
    title: b"define string",
    sentence: b"X becomes form N.",
    group: Group::Forms,
    traits: Traits {
        forms: Concerned::First,
        changes_forms: true,
        ..NO_TRAITS
    },
};

pub(super) const SEGMENT_STRING: Facts = Facts {
    name: b"ss",
    call: b"ss,N,X1,X2,..",
    title: b"segment string",
    sentence: b"Each X1 in form N becomes a gap of number 1, each X2 one of number 2, and so on.",
    group: Group::Forms,
    traits: Traits {
        uses: None,
        forms: Concerned::First,
        needs_form: true,
        changes_forms: true,
        ..NO_TRAITS
    },
};

pub(super) const DELETE_DEFINITION: Facts = Facts {
    name: b"dd",
    call: b"dd,N1,N2,..",
    title: b"delete definition",
    sentence: b"The forms N1, N2, .. are removed.",
    group: Group::Forms,
    traits: Traits {
        uses: None,
        forms: Concerned::Each,
        changes_forms: true,
        ..NO_TRAITS
    },
};

pub(super) const DELETE_ALL: Facts = Facts {
    name: b"da",
    call: b"da",
    title: b"delete all",
    sentence: b"All forms are removed.",
    group: Group::Forms,
    traits: Traits {
        uses: Some(0),
        forms: Concerned::All,
        changes_forms: true,
        ..NO_TRAITS
    },
};

pub(super) const LIST_NAMES: Facts = Facts {
    name: b"ln",
    call: b"ln,X",
    title: b"list names",
    sentence: b"The value is the names of all forms, with X in front of each.",
    group: Group::Forms,
    traits: Traits {
        uses: Some(1),
        forms: Concerned::All,
        ..NO_TRAITS
    },
};

pub(super) const PRINT_FORM: Facts = Facts {
    name: b"pf",
    call: b"pf,N",
    title: b"print form",
    sentence: b"Form N is printed, with its gaps and its pointer.",
    group: Group::Forms,
    traits: Traits {
        uses: Some(1),
        forms: Concerned::First,
        needs_form: true,
        prints: true,
        ..NO_TRAITS
    },
};

pub(super) const CALL_FORM: Facts = Facts {
    name: b"cl",
    call: b"cl,N,X1,X2,..",
    title: b"call",
    sentence: b"The value is form N from its pointer on, with X1, X2, .. in its gaps.",
    group: Group::Calls,
    traits: Traits {
        uses: None,
        forms: Concerned::First,
        needs_form: true,
        gives: Given::Body,
        ..NO_TRAITS
    },
};

pub(super) const CALL_SEGMENT: Facts = Facts {
    name: b"cs",
    call: b"cs,N,Z",
    title: b"call segment",
    sentence: b"The value is form N up to its next gap, or Z at its end.",
    group: Group::Calls,
    traits: Traits {
        default: Some(2),
        ..PART
    },
};

pub(super) const CALL_CHARACTER: Facts = Facts {
    name: b"cc",
    call: b"cc,N,Z",
    title: b"call character",
    sentence: b"The value is the next character of form N, or Z if there is none.",
    group: Group::Calls,
    traits: Traits {
        default: Some(2),
        ..PART
    },
};

pub(super) const CALL_NUMBER: Facts = Facts {
    name: b"cn",
    call: b"cn,N,D,Z",
    title: b"call n characters",
    sentence: b"The value is the next D characters of form N, or -D before it, or Z if there is none.",
    group: Group::Calls,
    traits: Traits {
        uses: Some(3),
        default: Some(3),
        ..PART
    },
};

pub(super) const INITIAL_PART: Facts = Facts {
    name: b"in",
    call: b"in,N,X,Z",
    title: b"initial",
    sentence: b"The value is form N up to the next X, or Z if there is none.",
    group: Group::Calls,
    traits: Traits {
        uses: Some(3),
        default: Some(3),
        ..PART
    },
};

pub(super) const CALL_RESTORE: Facts = Facts {
    name: b"cr",
    call: b"cr,N",
    title: b"call restore",
    sentence: b"The pointer of form N goes back to the start.",
    group: Group::Calls,
    traits: Traits {
        uses: Some(1),
        forms: Concerned::First,
        needs_form: true,
        changes_forms: true,
        ..NO_TRAITS
    },
};

pub(super) const EQUAL: Facts = Facts {
    name: b"eq",
    call: b"eq,A,B,X,Y",
    title: b"equal",
    sentence: b"The value is X where A and B are the same text, else Y.",
    group: Group::Comparing,
    traits: Traits {
        uses: Some(4),
        chooses: true,
        ..NO_TRAITS
    },
};

pub(super) const GREATER: Facts = Facts {
    name: b"gr",
    call: b"gr,A,B,X,Y",
    title: b"greater",
    sentence: b"The value is X where the number A is greater than the number B, else Y.",
    group: Group::Comparing,
    traits: Traits {
        uses: Some(4),
        chooses: true,
        ..NO_TRAITS
    },
};

pub(super) const ADD: Facts = Facts {
    name: b"ad",
    call: b"ad,A,B,Z",
    title: b"add",
    sentence: b"The value is the sum of A and B, or Z if it is out of range.",
    group: Group::Arithmetic,
    traits: COMPUTED,
};

pub(super) const SUBTRACT: Facts = Facts {
    name: b"su",
    call: b"su,A,B,Z",
    title: b"subtract",
    sentence: b"The value is A less B, or Z if it is out of range.",
    group: Group::Arithmetic,
    traits: COMPUTED,
};

pub(super) const MULTIPLY: Facts = Facts {
    name: b"ml",
    call: b"ml,A,B,Z",
    title: b"multiply",
    sentence: b"The value is the product of A and B, or Z if it is out of range.",
    group: Group::Arithmetic,
    traits: COMPUTED,
};

pub(super) const DIVIDE: Facts = Facts {
    name: b"dv",
    call: b"dv,A,B,Z",
    title: b"divide",
    sentence: b"The value is A divided by B, rounded towards 0, or Z if B is 0.",
    group: Group::Arithmetic,
    traits: COMPUTED,
};

pub(super) const UNION: Facts = Facts {
    name: b"bu",
    call: b"bu,A,B",
    title: b"Boolean union",
    sentence: b"The value has each bit that A or B has.",
    group: Group::Bits,
    traits: NO_TRAITS,
};

pub(super) const INTERSECTION: Facts = Facts {
    name: b"bi",
    call: b"bi,A,B",
    title: b"Boolean intersection",
    sentence: b"The value has each bit that both A and B have.",
    group: Group::Bits,
    traits: NO_TRAITS,
};

pub(super) const COMPLEMENT: Facts = Facts {
    name: b"bc",
    call: b"bc,A",
    title: b"Boolean complement",
    sentence: b"The value has each bit that A lacks.",
    group: Group::Bits,
    traits: Traits {
        uses: Some(1),
        ..NO_TRAITS
    },
};

pub(super) const SHIFT: Facts = Facts {
    name: b"bs",
    call: b"bs,D,A",
    title: b"Boolean shift",
    sentence: b"The value is A shifted by D bits, to the left where D is positive.",
    group: Group::Bits,
    traits: NO_TRAITS,
};

pub(super) const ROTATE: Facts = Facts {
    name: b"br",
    call: b"br,D,A",
    title: b"Boolean rotate",
    sentence: b"The value is A rotated by D bits, to the left where D is positive.",
    group: Group::Bits,
    traits: NO_TRAITS,
};
