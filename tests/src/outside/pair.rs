//! Both kernels side by side: each event goes to both, and what comes back must be the same.
use okrozumba::{Answer, State};
use second::layout;
use second::plain::{Event, Plain};
use second::setup::{self, Setup};

pub struct Pair {
    pub kernel: State,
    pub plain: Plain,
    /// How it began, for a report.
    origin: Plain,
    events: Vec<Event>,
}

pub fn serve(kernel: &mut State, event: Event) -> Answer {
    match event {
        Event::Tick => kernel.tick(),
        Event::Enter => kernel.enter(),
        Event::Leave => kernel.leave(),
        Event::Call {
            context,
            number,
            a,
            b,
            c,
        } => kernel.call(context, number, a, b, c),
    }
}

impl Pair {
    pub fn fresh(setup: &Setup) -> Result<Pair, String> {
        let bytes = setup::bytes(setup);
        let kernel = State::start(&bytes).map_err(|bad| format!("{setup:?}: {bad:?}"))?;
        let pair = Pair::of(kernel, Plain::fresh(setup));
        pair.same_picture()?;
        Ok(pair)
    }

    pub fn of(kernel: State, plain: Plain) -> Pair {
        let origin = plain.clone();
        Pair {
            kernel,
            plain,
            origin,
            events: Vec::new(),
        }
    }

    pub fn difference(
        &self,
        what: &str,
        ours: impl std::fmt::Debug,
        plains: impl std::fmt::Debug,
    ) -> String {
        format!(
            "{what}\n  kernel: {ours:?}\n  plain:  {plains:?}\nfrom {:?}\nafter {:?}",
            self.origin.picture(),
            self.events
        )
    }

    /// One event in both: the same answer, and a refusal leaves every word as it was.
    pub fn event(&mut self, event: Event) -> Result<Answer, String> {
        let before = self.kernel.clone();
        self.events.push(event);
        let ours = serve(&mut self.kernel, event);
        let plains = self.plain.event(event);
        if ours != plains {
            return Err(self.difference("answer", ours, plains));
        }
        if ours.code < 0 && self.kernel != before {
            return Err(self.difference("a refusal changed the state", ours, plains));
        }
        Ok(ours)
    }

    pub fn same_cell(&self, id: i32) -> Result<i32, String> {
        let ours = self.kernel.cell(id);
        let plains = self.plain.cell(id);
        if (ours.code, ours.word) == plains {
            Ok(ours.code)
        } else {
            Err(self.difference(&format!("cell of {id}"), ours, plains))
        }
    }

    pub fn same_running(&self) -> Result<(), String> {
        let (ours, plains) = (self.kernel.running(), self.plain.running().unwrap_or(0));
        if ours == plains {
            Ok(())
        } else {
            Err(self.difference("running task", ours, plains))
        }
    }

    /// The memory is a sound state and shows what the plain kernel has.
    pub fn same_picture(&self) -> Result<(), String> {
        let plains = self.plain.picture();
        match layout::shown(&self.kernel) {
            Ok(ours) if ours == plains => Ok(()),
            Ok(ours) => Err(self.difference("state", ours, plains)),
            Err(rule) => Err(self.difference(
                &format!("no sound state: {rule}"),
                self.kernel.words(),
                plains,
            )),
        }
    }
}
