// Generated from crates/trac_core/src/machine.rt by hosts/rust/generate, and never edited.
//! The machine: one step, and a run to the end.

use crate::trac_core::call::perform_next;
use crate::trac_core::outcome::StepOutcome;
use crate::trac_core::performer::WithDevices;
use crate::trac_core::scan::scan_once;
use crate::trac_devices::{Sink, Source};
use crate::trac_forms::Work;
use crate::trac_language::{Fate, Report};
use crate::trac_space::Cell;

pub(crate) mod advancing;
pub(crate) mod answering;
pub(crate) mod arguments;
pub(crate) mod changing;
pub(crate) mod closing;
pub(crate) mod open_calls;
pub(crate) mod printing;
pub(crate) mod session;
pub(crate) mod view;

pub use advancing::Progress;
pub use answering::Delivery;
pub use changing::Refused;
pub use open_calls::CallMark;
pub use session::Awaits;

/// A processor over a lent block of cells, with an allowance of steps. It takes no other memory.
/// The rules that it follows are Mooers' (1966 and 1972); the block, the allowance and the
/// accounting are this processor's own choice.
pub struct Machine<'a> {
    work: Work<'a>,
    meta: u8,
    allowance: u64,
    steps: u64,
    peak: u32,
    fate: Option<Fate>,
    /// Whether turns stop before a call whose name is no function.
    stops: bool,
}

impl<'a> Machine<'a> {
    /// A machine over the cells of a block, whatever they hold, which may make `steps` steps.
    /// It has no form, and the apostrophe is its meta character.
    pub fn over(block: &'a mut [Cell], steps: u64) -> Machine<'a>
    {
        Machine {
            work: Work::over(block),
            meta: b'\'',
            allowance: steps,
            steps: 0,
            peak: 0,
            fate: None,
            stops: false,
        }
    }

    /// The steps done.
    pub fn steps(&self) -> u64
    {
        self.steps
    }

    /// The greatest need of a step so far, in cells.
    pub fn peak(&self) -> u32
    {
        self.peak
    }

    /// One step. None: it was done, and the run goes on. Some: the run is over with this fate, and
    /// each later call answers it again and calls neither source nor sink.
    pub fn step<I: Source, O: Sink>(&mut self, source: &mut I, sink: &mut O) -> Option<Fate>
    {
        if self.fate.is_some() {
            return self.fate;
        }
        if self.steps == self.allowance {
            return self.count(StepOutcome {
                fate: Some(Fate::Steps),
                need: 0,
            });
        }
        let need = self.work.used();
        let Some(action) = scan_once(&mut self.work) else {
            return self.count(StepOutcome { fate: None, need });
        };
        let outcome = perform_next(&mut self.work, action, &mut self.meta, source, sink);
        self.count(outcome)
    }

    /// Counts a step with this outcome, of a run that is not over.
    fn count(&mut self, outcome: StepOutcome) -> Option<Fate>
    {
        let before = Counters {
            allowance: self.allowance,
            steps: self.steps,
            peak: self.peak,
        };
        let counters = before.after(outcome);
        self.steps = counters.steps;
        self.peak = counters.peak;
        self.fate = outcome.fate;
        outcome.fate
    }

    /// Makes steps to the end of the run, and reports the result: with neither device failing,
    /// the output, the fate, the steps and the peak of the definition's run in this room with this
    /// allowance. The machine must be fresh.
    pub fn run<I: Source, O: Sink>(mut self, source: &mut I, sink: &mut O) -> Report
    {
        self.resume(source, sink)
    }

    /// Makes steps to the end of the run, as `run` does, from wherever the machine stands, and
    /// leaves it to be looked at: the report has its steps and its peak. With neither device
    /// failing, what is printed, the fate, the steps and the peak are those of the definition's run
    /// from there. If the run is over already, the same fate is reported again, and nothing is
    /// called.
    pub fn resume<I: Source, O: Sink>(&mut self, source: &mut I, sink: &mut O) -> Report
    {
        if let Some(fate) = self.fate {
            return self.report_with(fate);
        }
        let left = self.allowance - self.steps;
        self.drive(WithDevices, left, source, sink);
        let fate = self.fate.unwrap_or(Fate::Steps);
        self.fate = Some(fate);
        self.report_with(fate)
    }

    /// The report of a run that ended with this fate.
    fn report_with(&self, fate: Fate) -> Report
    {
        Report {
            fate,
            steps: self.steps,
            peak: self.peak,
        }
    }
}

/// The counters of a run.
#[derive(Clone, Copy, Debug, PartialEq, Eq)]
struct Counters {
    allowance: u64,
    steps: u64,
    peak: u32,
}

impl Counters {
    /// The counters after a step that came to this.
    #[inline]
    fn after(self, outcome: StepOutcome) -> Counters
    {
        let peak = self.peak.max(outcome.need);
        match outcome.fate {
            None | Some(Fate::Halted | Fate::InputEnded) => Counters {
                steps: self.steps + 1,
                peak,
                ..self
            },
            Some(Fate::InputFailed | Fate::OutputFailed) => Counters { peak, ..self },
            Some(Fate::Workspace | Fate::Steps) => self,
        }
    }
}
