//! The states of tasks.
use core::fmt;

use crate::{archive, task_state, Code, State, TASKS};

/// The state of a task. It prints the paper's name: `WAIT-SUSPEND`.
#[derive(Clone, Copy, PartialEq, Eq, Hash, Debug)]
pub enum TaskState {
    /// Not started, or ended.
    Dormant,
    /// In a ready queue behind the running task.
    Ready,
    /// The running task; while a handler is open, the one at the outermost entry unless it is suspended.
    Run,
    /// Waiting.
    Wait,
    /// Suspended.
    Suspend,
    /// Waiting and suspended.
    WaitSuspend,
    /// Not there: deleted and not made again.
    Absent,
}

impl TaskState {
    /// The seven states, by their numbers.
    pub const ALL: [TaskState; 7] = [
        TaskState::Dormant,
        TaskState::Ready,
        TaskState::Run,
        TaskState::Wait,
        TaskState::Suspend,
        TaskState::WaitSuspend,
        TaskState::Absent,
    ];

    /// The state of a number, 0 to 6.
    pub fn of(number: u32) -> Option<TaskState> {
        TaskState::ALL.get(number as usize).copied()
    }

    /// The number that tsk_sts gives ([`task_state`]), 6 where it refuses a task that is not there.
    pub const fn number(self) -> u32 {
        match self {
            TaskState::Dormant => task_state::DORMANT,
            TaskState::Ready => task_state::READY,
            TaskState::Run => task_state::RUN,
            TaskState::Wait => task_state::WAIT,
            TaskState::Suspend => task_state::SUSPEND,
            TaskState::WaitSuspend => task_state::WAIT_SUSPEND,
            TaskState::Absent => task_state::ABSENT,
        }
    }

    /// Its name.
    pub const fn name(self) -> &'static str {
        match self {
            TaskState::Dormant => "DORMANT",
            TaskState::Ready => "READY",
            TaskState::Run => "RUN",
            TaskState::Wait => "WAIT",
            TaskState::Suspend => "SUSPEND",
            TaskState::WaitSuspend => "WAIT-SUSPEND",
            TaskState::Absent => "ABSENT",
        }
    }
}

impl fmt::Display for TaskState {
    fn fmt(&self, f: &mut fmt::Formatter<'_>) -> fmt::Result {
        f.pad(self.name())
    }
}

/// The states of all tasks of a kernel.
#[derive(Clone, Copy, PartialEq, Eq, Debug)]
pub struct TaskStates {
    /// Those of higher ids are dormant.
    states: [TaskState; TASKS],
    tasks: usize,
}

impl TaskStates {
    /// How many tasks the setup has; those that are not there count.
    pub fn len(&self) -> usize {
        self.tasks
    }

    /// Never: a setup has a task.
    pub fn is_empty(&self) -> bool {
        self.tasks == 0
    }

    /// The state of a task; none for an id that is no task's.
    pub fn of(&self, task: u32) -> Option<TaskState> {
        let place = (task as usize).checked_sub(1)?;
        self.states[..self.tasks].get(place).copied()
    }

    /// The tasks in the order of their ids, each with its state.
    pub fn iter(&self) -> impl Iterator<Item = (u32, TaskState)> + '_ {
        (1..).zip(self.states[..self.tasks].iter().copied())
    }
}

impl State {
    /// The states of all tasks; or the code of what is damaged, [`Code::H_NUMBER`] to [`Code::H_FREE`].
    ///
    /// ```
    /// use okrozumba::{Code, State, TaskState, MESSAGES, STATE_WORDS};
    ///
    /// // One priority; two tasks, of which the first is started; nothing else.
    /// let words: [u32; 11] = [1, 2, 1, 1, 1, 0, 0, 0, 0, 0, 0];
    /// let setup: Vec<u8> = words.iter().flat_map(|word| word.to_le_bytes()).collect();
    /// let states = State::start(&setup).unwrap().states().unwrap();
    /// assert_eq!(states.of(2), Some(TaskState::Dormant));
    /// let text: Vec<String> = states.iter().map(|(task, state)| format!("{task} {state}")).collect();
    /// assert_eq!(text, ["1 RUN", "2 DORMANT"]);
    ///
    /// let damaged = State::of([9; STATE_WORDS], [0; MESSAGES]);
    /// assert_eq!(damaged.states(), Err(Code::H_NUMBER));
    /// ```
    pub fn states(&self) -> Result<TaskStates, Code> {
        let mut numbers = [task_state::DORMANT; TASKS];
        // SAFETY: arrays of the sizes that are asked, borrowed apart.
        let shown = unsafe { archive::okrozumba_states(&self.words, &self.messages, &mut numbers) };
        match Code::of(shown.code) {
            Code::E_OK => Ok(TaskStates {
                states: numbers.map(told),
                tasks: shown.tasks as usize,
            }),
            damage => Err(damage),
        }
    }
}

fn told(number: u32) -> TaskState {
    TaskState::of(number).expect("the archive says what its header has")
}
