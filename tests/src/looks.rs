//! What set_flg met in runs (request K5), by the context of the call. Runs that miss one of the kinds tested too little.
use crate::plain::{Answer, Event, Plain};

const SET_FLG: i32 = 16;
/// By number; each with the most waiters that the request allows.
const CONTEXTS: [(&str, u32); 2] = [("a task", 31), ("a handler", 32)];
const KINDS: [&str; 6] = [
    "no waiter",
    "several, nobody released",
    "several, somebody released, nobody with clearing",
    "several, the first released with clearing",
    "several, a later one released with clearing",
    "a suspended one",
];

#[derive(Default)]
pub struct Looks {
    /// How often each kind was met, and the most waiters looked at, in each context.
    times: [[u64; KINDS.len()]; CONTEXTS.len()],
    most: [u32; CONTEXTS.len()],
}

/// Which kinds an accepted set_flg met, by the states before and after it.
fn met(before: &Plain, flag: u32, after: &Plain, answer: &Answer) -> [bool; KINDS.len()] {
    let queue = before.flag_waiters(flag);
    let several = queue.len() > 1;
    let clearing = after.place_of_clearing(&queue);
    let mut looked_at = queue.iter().take(answer.w1 as usize);
    [
        queue.is_empty(),
        several && answer.released == 0,
        several && answer.released > 0 && clearing.is_none(),
        several && clearing == Some(1),
        several && clearing > Some(1),
        looked_at.any(|waiter| before.task(waiter.task).standing.suspended()),
    ]
}

impl Looks {
    pub fn event(&mut self, before: &Plain, event: Event, after: &Plain, answer: &Answer) {
        let Event::Call {
            // another one is no call's: in a list of events it may be an entry or a return
            context: context @ 0..=1,
            number: SET_FLG,
            a,
            ..
        } = event
        else {
            return;
        };
        if answer.code != 0 {
            return;
        }
        let by = context as usize;
        self.most[by] = self.most[by].max(answer.w1);
        for (times, met) in self.times[by]
            .iter_mut()
            .zip(met(before, a as u32, after, answer))
        {
            *times += u64::from(met);
        }
    }

    /// How often each kind was met, or what is missing, or too long a look.
    pub fn lines(&self) -> Result<String, String> {
        let mut lines = String::new();
        for ((by, allowed), (most, all)) in CONTEXTS.iter().zip(self.most.iter().zip(&self.times)) {
            if most > allowed {
                return Err(format!("set_flg from {by} looked at {most} waiters"));
            }
            for (kind, times) in KINDS.iter().zip(all) {
                if *times == 0 {
                    return Err(format!("set_flg from {by} never met: {kind}"));
                }
                lines += &format!("  {times:8} times set_flg from {by} met: {kind}\n");
            }
            lines += &format!("  {most:8} waiters at most looked at from {by}\n");
        }
        Ok(lines)
    }
}
