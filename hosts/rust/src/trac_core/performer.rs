// Generated from crates/trac_core/src/performer.rt by hosts/rust/generate, and never edited.
//! What performs the calls that the scanner comes to: all of them, with a source and a sink, or those
//! that need neither.

use crate::trac_core::call::{asks_host, named, needs_device, perform_alone, perform_next};
use crate::trac_core::idling::{begin_idling, load_idling};
use crate::trac_core::outcome::StepOutcome;
use crate::trac_core::read_in_place::{STRING_FROM, read_in_place};
use crate::trac_core::scan::NextAction;
use crate::trac_devices::{Sink, Source};
use crate::trac_forms::Work;
use crate::trac_language::Function;

/// Makes the steps that perform a call or load the idling procedure. It may decline one.
pub(crate) trait Performer<I, O>: Copy {
    /// Makes the step that the beginning of the active string asks for. An error is the function of the
    /// call that is declined, if it names one: then nothing is done.
    fn perform(
        self,
        work: &mut Work,
        action: NextAction,
        meta: &mut u8,
        source: &mut I,
        sink: &mut O,
    ) -> Result<StepOutcome, Option<Function>>;

    /// The active string is empty, and eight steps may be made, for which there is room: the idling procedure is
    /// loaded and its two calls are opened. Then it may make more of the steps that are left, and takes those from
    /// `left` after which the run goes on: it reads the string, and scans the ordinary characters in front of it. Gives
    /// the outcome of the step that reads. `None` if it makes no more.
    fn idle(
        self,
        work: &mut Work,
        left: &mut u64,
        meta: u8,
        source: &mut I,
        sink: &O,
    ) -> Option<StepOutcome>;
}

/// Performs each call. Those that read or print use the source and the sink.
#[derive(Clone, Copy, Debug)]
pub(crate) struct WithDevices;

impl<I: Source, O: Sink> Performer<I, O> for WithDevices {
    #[inline(always)]
    fn perform(
        self,
        work: &mut Work,
        action: NextAction,
        meta: &mut u8,
        source: &mut I,
        sink: &mut O,
    ) -> Result<StepOutcome, Option<Function>> {
        Ok(perform_next(work, action, meta, source, sink))
    }

    #[inline(always)]
    fn idle(
        self,
        work: &mut Work,
        left: &mut u64,
        meta: u8,
        source: &mut I,
        _sink: &O,
    ) -> Option<StepOutcome> {
        if *left == 0 {
            begin_idling(work);
            return None;
        }
        let outcome = read_in_place(work, *left - 1, meta, source);
        if outcome.fate.is_none() {
            *left -= 1 + u64::from(work.neutral_len() - STRING_FROM);
        }
        Some(outcome)
    }
}

/// Performs the calls that need no device, and declines the others.
#[derive(Clone, Copy, Debug)]
pub(crate) struct Alone {
    /// Whether it declines a call whose name is no function, too.
    pub(crate) stops: bool,
}

impl Performer<(), ()> for Alone {
    #[inline(always)]
    fn perform(
        self,
        work: &mut Work,
        action: NextAction,
        meta: &mut u8,
        _source: &mut (),
        _sink: &mut (),
    ) -> Result<StepOutcome, Option<Function>> {
        match action {
            NextAction::Idling => Ok(load_idling(work)),
            NextAction::EndOfCall(place) => {
                let call = named(work, place);
                if needs_device(work, call) {
                    return Err(call.function);
                }
                if asks_host(self.stops, call) {
                    return Err(call.function);
                }
                work.drop_active(1);
                Ok(perform_alone(work, call, meta))
            }
        }
    }

    #[inline(always)]
    fn idle(
        self,
        work: &mut Work,
        _left: &mut u64,
        _meta: u8,
        _source: &mut (),
        _sink: &(),
    ) -> Option<StepOutcome> {
        begin_idling(work);
        None
    }
}
