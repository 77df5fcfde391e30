// Generated from crates/trac_core/src/machine/advancing.rt by hosts/rust/generate, and never edited.
//! Steps, as many as follow one another.

use super::{Counters, Machine};
use crate::trac_core::idling::{IDLING_STEPS, idling_need, may_begin_idling};
use crate::trac_core::long_runs::LongRuns;
use crate::trac_core::outcome::StepOutcome;
use crate::trac_core::performer::{Alone, Performer};
use crate::trac_core::scan::{NextAction, scan_steps};
use crate::trac_forms::Work;
use crate::trac_language::{Fate, Function};

/// What `advance` did.
#[derive(Clone, Copy, Debug)]
pub struct Progress {
    /// The steps that were done and after which the run went on.
    pub done: u64,
    /// The function of the call that it stopped before, which reads or prints. `None` if it stopped
    /// before a call of no function, or for another reason.
    pub next: Option<Function>,
}

/// How far a machine went.
#[derive(Clone, Copy, Debug)]
pub(super) struct Advance {
    progress: Progress,
    /// The steps and the peak that are counted then, and how the run ended, if it did.
    steps: u64,
    peak: u32,
    fate: Option<Fate>,
}

impl<'a> Machine<'a> {
    /// Makes at most `most` steps, as `step` does, but none that needs a device: it stops before a
    /// call of `rs`, `rc` or `pf`, before one of `ps` whose text isn't null, and before one whose name is no
    /// function if `stop_at_unknown` asked for that. Gives how many steps were done after which the run went on.
    /// They are fewer than `most` only if it stopped there, the allowance is used up, or the next step
    /// ended the run, by `hl` or since it needs more than the room. With
    /// the allowance used up, the next call of `step` ends the run. Where the run is over before,
    /// nothing is done. This processor's own choice.
    pub fn advance(&mut self, most: u64) -> Progress
    {
        if self.fate.is_some() {
            return Progress {
                done: 0,
                next: None,
            };
        }
        let performer = Alone { stops: self.stops };
        self.drive(performer, most, &mut (), &mut ())
    }

    /// Makes at most `most` steps of a run that isn't over, whose calls this performer performs. They are
    /// fewer only if it declined a call, the allowance is used up, or the next step ended the run.
    #[inline(always)]
    pub(super) fn drive<I, O, P: Performer<I, O>>(
        &mut self,
        performer: P,
        most: u64,
        source: &mut I,
        sink: &mut O,
    ) -> Progress
    {
        let at = Counters {
            allowance: self.allowance,
            steps: self.steps,
            peak: self.peak,
        };
        let to = go_on(
            &mut self.work,
            &mut self.meta,
            at,
            most,
            performer,
            source,
            sink,
        );
        self.steps = to.steps;
        self.peak = to.peak;
        self.fate = to.fate;
        to.progress
    }
}

/// Makes at most `most` steps of a run that isn't over and has these counters. They are single values
/// here, and no part of a machine, so that they need not stand in memory. `need` has the cells of the first step
/// since a call: those that perform none need no more than it does.
#[inline(never)]
fn go_on<I, O, P: Performer<I, O>>(
    work: &mut Work,
    meta: &mut u8,
    at: Counters,
    most: u64,
    performer: P,
    source: &mut I,
    sink: &mut O,
) -> Advance
{
    let reach = most.min(at.allowance - at.steps);
    let mut left = reach;
    let mut peak = at.peak;
    let mut need = work.used();
    let mut long_runs = LongRuns::none();
    while left > 0 {
        match scan_steps(work, left, &mut long_runs) {
            Ok(done) => {
                left -= done;
                peak = peak.max(need);
            }
            Err(NextAction::Idling) if may_begin_idling(work, left) => {
                peak = peak.max(idling_need(work));
                left -= IDLING_STEPS;
                long_runs = LongRuns::none();
                if let Some(read) = performer.idle(work, &mut left, *meta, source, &*sink) {
                    if let Some(fate) = read.fate {
                        return over(at, reach - left, peak, read, fate);
                    }
                    peak = peak.max(read.need);
                }
                need = work.used();
            }
            Err(action) => {
                let last = match performer.perform(work, action, meta, source, sink) {
                    Ok(last) => last,
                    Err(function) => return going(reach - left, function, at.steps, peak),
                };
                if let Some(fate) = last.fate {
                    return over(at, reach - left, peak, last, fate);
                }
                left -= 1;
                peak = peak.max(last.need);
                need = work.used();
                long_runs = LongRuns::none();
            }
        }
    }
    going(reach, None, at.steps, peak)
}

/// The advance of `done` steps, after which the peak is `peak` and a step with this outcome ends the run with this
/// fate. `at` has the counters before all of them.
fn over(at: Counters, done: u64, peak: u32, last: StepOutcome, fate: Fate) -> Advance
{
    let before = Counters {
        allowance: at.allowance,
        steps: at.steps + done,
        peak,
    };
    let counters = before.after(last);
    Advance {
        progress: Progress { done, next: None },
        steps: counters.steps,
        peak: counters.peak,
        fate: Some(fate),
    }
}

/// The advance of `done` steps after `steps` others, with this peak, and what the next one performs; the run goes
/// on.
fn going(done: u64, next: Option<Function>, steps: u64, peak: u32) -> Advance
{
    Advance {
        progress: Progress { done, next },
        steps: steps + done,
        peak,
        fate: None,
    }
}
