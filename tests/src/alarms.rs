//! What counters and alarms met in runs (request K11). Runs that miss one of the kinds tested too little.
use crate::picture::{Alarm, Counter, Due, Standing, Wait};
use crate::plain::{Event, Plain, DEPTH_MOST, E_DMT, E_NOEXS, E_QOVR, H_NODMT, SET_ABS, SET_REL};
use crate::setup::ALARMS;

/// An alarm that fired in a tick.
struct Firing<'a> {
    before: &'a Plain,
    after: &'a Plain,
    /// As it was and as it is.
    was: Alarm,
    is: Alarm,
}

impl Firing<'_> {
    fn start(&self, code: i32) -> bool {
        !self.is.wakes && self.is.kept == code
    }

    fn wake(&self, code: i32) -> bool {
        self.is.wakes && self.is.kept == code
    }

    fn periodic(&self) -> bool {
        self.was.due.is_some_and(|due| due.period > 0)
    }

    /// How its task stood.
    fn stood(&self) -> Standing {
        self.before.task(self.was.task).standing
    }

    /// The wait ended in the same tick, before the alarm's turn.
    fn timed_out(&self) -> bool {
        self.stood().wait() == Some(Wait::Timed(1))
    }

    fn stored(&self) -> bool {
        self.after.task(self.was.task).wakeups > 0
    }
}

const FIRINGS: [(&str, fn(&Firing) -> bool); 16] = [
    ("a start that was done", |f| f.start(0)),
    ("a start of a task not dormant", |f| f.start(H_NODMT)),
    ("a start of a task that is not there", |f| f.start(E_NOEXS)),
    ("a wake that was done", |f| f.wake(0)),
    ("a wake of a dormant task", |f| f.wake(E_DMT)),
    ("a wake of a task that is not there", |f| f.wake(E_NOEXS)),
    ("a wake beyond 15", |f| f.wake(E_QOVR)),
    ("a firing once", |f| !f.periodic()),
    ("a firing with a period", |f| f.periodic()),
    ("a refused firing with a period", |f| {
        f.periodic() && f.is.kept != 0
    }),
    ("a success behind a refusal", |f| {
        f.was.kept != 0 && f.is.kept == 0
    }),
    ("a success once the task is made again", |f| {
        f.was.kept == E_NOEXS && f.is.kept == 0
    }),
    ("a sleeper woken", |f| {
        f.wake(0) && f.stood().asleep() && !f.timed_out()
    }),
    ("a suspended sleeper woken", |f| {
        f.wake(0) && f.stood().asleep() && f.stood().suspended() && !f.timed_out()
    }),
    ("a wake-up stored right behind a timeout", |f| {
        f.wake(0) && f.timed_out() && f.stored()
    }),
    ("a firing at the greatest depth", |f| {
        f.before.depth() == DEPTH_MOST
    }),
];

/// An alarm that a call has set.
struct Set<'a> {
    counter: &'a Counter,
    absolute: bool,
    count: u32,
    due: Due,
}

const SETS: [(&str, fn(&Set) -> bool); 8] = [
    ("set_abs at the present count", |s| {
        s.absolute && s.count == s.counter.present
    }),
    ("set_abs at 0", |s| s.absolute && s.count == 0),
    ("set_abs at m", |s| s.absolute && s.count == s.counter.size),
    ("set_rel by 0", |s| !s.absolute && s.count == 0),
    ("set_rel by m", |s| !s.absolute && s.count == s.counter.size),
    ("set_rel round the end", |s| {
        !s.absolute && s.due.expiry < s.counter.present
    }),
    ("a period of m", |s| s.due.period == s.counter.size),
    ("m at its end", |s| s.counter.size == 65535),
];

/// The alarms that fired in a tick.
struct Tick<'a> {
    counter: &'a Counter,
    was: u32,
    fired: &'a [Alarm],
}

const TICKS: [(&str, fn(&Tick) -> bool); 6] = [
    ("a counter that goes round", |t| {
        t.counter.present == 0 && t.was > 0
    }),
    ("a counter of one count", |t| t.counter.size == 1),
    ("no alarm fires", |t| t.fired.is_empty()),
    ("eight alarms at once", |t| t.fired.len() == ALARMS),
    ("eight alarms at once on one task", |t| {
        t.fired.len() == ALARMS && t.fired.iter().all(|alarm| alarm.task == t.fired[0].task)
    }),
    ("a start and a wake of one task at once", |t| {
        let same = |a: &Alarm, b: &Alarm| a.task == b.task && !a.wakes && b.wakes;
        t.fired.iter().any(|a| t.fired.iter().any(|b| same(a, b)))
    }),
];

#[derive(Default)]
pub struct Alarms {
    firings: [u64; FIRINGS.len()],
    sets: [u64; SETS.len()],
    ticks: [u64; TICKS.len()],
}

fn count<K>(times: &mut [u64], kinds: &[(&str, K)], met: impl Fn(&K) -> bool) {
    for (times, (_, kind)) in times.iter_mut().zip(kinds) {
        *times += u64::from(met(kind));
    }
}

impl Alarms {
    /// By the states before and after an event that was not refused.
    pub fn event(&mut self, before: &Plain, event: Event, after: &Plain, code: i32) {
        let (Some(was), Some(is), 0) = (before.counter(), after.counter(), code) else {
            return;
        };
        match event {
            Event::Tick => self.tick(before, after, was, is),
            Event::Call {
                context: 0 | 1,
                number: number @ (SET_ABS | SET_REL),
                a,
                b,
                ..
            } => {
                let due = is.alarms[a as usize - 1].due.expect("it is set");
                let set = Set {
                    counter: is,
                    absolute: number == SET_ABS,
                    count: b as u32,
                    due,
                };
                count(&mut self.sets, &SETS, |kind| kind(&set));
            }
            _ => {}
        }
    }

    fn tick(&mut self, before: &Plain, after: &Plain, was: &Counter, is: &Counter) {
        let mut fired = Vec::new();
        for (was, new) in was.alarms.iter().zip(is.alarms) {
            if was.due.is_some_and(|due| due.expiry == is.present) {
                let firing = Firing {
                    before,
                    after,
                    was: *was,
                    is: new,
                };
                count(&mut self.firings, &FIRINGS, |kind| kind(&firing));
                fired.push(new);
            }
        }
        let tick = Tick {
            counter: is,
            was: was.present,
            fired: &fired,
        };
        count(&mut self.ticks, &TICKS, |kind| kind(&tick));
    }

    /// How often each kind was met, or what is missing.
    pub fn lines(&self) -> Result<String, String> {
        let names = FIRINGS.iter().map(|kind| kind.0);
        let names = names.chain(SETS.iter().map(|kind| kind.0));
        let names = names.chain(TICKS.iter().map(|kind| kind.0));
        let times = self.firings.iter().chain(&self.sets).chain(&self.ticks);
        let mut lines = String::new();
        for (name, times) in names.zip(times) {
            if *times == 0 {
                return Err(format!("alarms never met: {name}"));
            }
            lines += &format!("  {times:8} times alarms met: {name}\n");
        }
        Ok(lines)
    }
}
