//! The paper's bench sheet, its further cases and those of later requests, on both kernels.
use crate::pair::Pair;
use crate::Verdict;
use second::cases::{self, Bench};
use second::plain::{Answer, Event};

impl Bench for Pair {
    fn event(&mut self, event: Event) -> Result<Answer, String> {
        let answer = Pair::event(self, event)?;
        self.same_running()?;
        self.same_picture()?;
        Ok(answer)
    }

    fn running(&self) -> Result<u32, String> {
        self.same_running()?;
        Ok(self.kernel.running())
    }

    fn cell(&self, task: i32) -> Result<(i32, u32), String> {
        self.same_cell(task)?;
        let cell = self.kernel.cell(task);
        Ok((cell.code, cell.word))
    }
}

pub fn check() -> Verdict {
    let cases = cases::check(Pair::fresh)?;
    Ok(format!("{cases} cases, both kernels"))
}
