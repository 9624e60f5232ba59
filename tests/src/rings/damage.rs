//! What is told of rings that the check has found damaged: the first rule broken and the smallest id that breaks it. Nothing of this is on
//! the way of a sound state.
use super::*;

/// The lowest of the ids whose bits are set, bit i - 1 for id i.
fn lowest(ids: u32) -> Option<u32> {
    (ids != 0).then(|| ids.trailing_zeros() + 1)
}

impl Kernel {
    /// The code, and the id or 0.
    #[cold]
    #[inline(never)]
    pub(super) fn breach(&self) -> (i32, u32) {
        if !self.numbers_are_sound() {
            return (H_NUMBER, 0);
        }
        let (Some(misplaced), Some(held), Some(mislisted)) =
            (self.misplaced(), self.held(), self.mislisted())
        else {
            return (H_NUMBER, 0);
        };
        let twice = || (1..=self.messages).find(|j| held[*j as usize] > 1);
        if let Some(t) = lowest(misplaced) {
            (H_QUEUE, t)
        } else if let Some(t) = lowest(self.overlooked()) {
            (H_SERVED, t)
        } else if let Some(j) = twice() {
            (H_TWICE, j)
        } else if let Some(p) = lowest(mislisted) {
            (H_FREE, p)
        } else {
            (H_NUMBER, 0)
        }
    }

    // ---- numbers

    fn numbers_are_sound(&self) -> bool {
        self.ranges_are_sound()
            && (1..=self.tasks).all(|t| self.is_task_in_range(t))
            && (1..=self.messages).all(|j| self.mailbox[j as usize] <= self.mailboxes)
            && self.depth <= 15
            && (self.depth == 0 || self.is_running_sound())
    }

    fn is_task_in_range(&self, t: u32) -> bool {
        let task = self.at(t);
        if task.status == ABSENT {
            return Self::is_nothing(task);
        }
        let own = |p: u32| (1..=self.priorities).contains(&p);
        let cell = task.code == 0 || matches!(task.code, E_TMOUT | E_RLWAI) && task.word == 0;
        let numbers = own(task.priority) && own(task.start) && task.wakeups <= 15 && cell;
        numbers
            && match task.status {
                DORMANT => task.wakeups == 0 && task.priority == task.start,
                READY | SUSPEND => true,
                WAIT | WAIT_SUSPEND => self.is_wait_in_range(task),
                _ => false,
            }
    }

    fn is_wait_in_range(&self, task: &Task) -> bool {
        let exists = |n: u32| (1..=n).contains(&task.object);
        match task.kind {
            SLEEP => task.wakeups == 0,
            TIMED => task.wakeups == 0 && (1..=i32::MAX as u32).contains(&self.left(task)),
            SEMAPHORE => exists(self.semaphores),
            FLAG => exists(self.flags) && task.wish != 0 && task.mode <= 3,
            MAILBOX => exists(self.mailboxes),
            POOL => exists(self.pools),
            _ => false,
        }
    }

    // ---- queues, once the numbers are sound

    /// The tasks, by bit, that do not stand once behind their own anchor and behind no other. None if a queue lists what is no task.
    fn misplaced(&self) -> Option<u32> {
        let objects = [self.semaphores, self.flags, self.mailboxes, self.pools];
        let waits = (SEMAPHORE..).zip(objects);
        let waits = waits.flat_map(|(kind, n)| (1..=n).map(move |o| wait_anchor(kind, o)));
        let anchors = (1..=self.priorities).map(ready_anchor).chain(waits);
        let mut wrong = 0;
        for anchor in anchors {
            let mut times = [0; TASKS + 1];
            if !self.queue.count(anchor, self.tasks, &mut times) {
                return None;
            }
            for t in 1..=self.tasks {
                let right = times[t as usize] == u32::from(self.home(t) == anchor);
                wrong |= u32::from(!right) << (t - 1);
            }
        }
        Some(wrong)
    }

    /// The waiters, by bit, beside what would serve them.
    fn overlooked(&self) -> u32 {
        let served = |t: u32| {
            let task = self.at(t);
            let o = task.object as usize;
            match task.kind {
                SEMAPHORE => self.count[o] != 0,
                FLAG => meets(self.pattern[o], task.wish, task.mode),
                MAILBOX => !self.mail.is_empty(mail_anchor(task.object)),
                POOL => self.free[o] != 0,
                _ => false,
            }
        };
        (1..=self.tasks)
            .filter(|t| self.is_waiting(*t) && served(*t))
            .fold(0, |all, t| all | 1 << (t - 1))
    }

    /// How often the mailboxes hold each message. None if one lists what is no message.
    fn held(&self) -> Option<[u32; MESSAGES + 1]> {
        let mut times = [0; MESSAGES + 1];
        (1..=self.mailboxes)
            .all(|m| self.mail.count(mail_anchor(m), self.messages, &mut times))
            .then_some(times)
    }

    /// The pools, by bit, whose queue does not list each free block once and no other. None if one lists what is no block of its pool.
    fn mislisted(&self) -> Option<u32> {
        let mut wrong = 0;
        for p in 1..=self.pools {
            let mut times = [0; BLOCKS + 1];
            let listed = self
                .blocks
                .count(free_anchor(p), 32 * self.pools, &mut times);
            let own = block_node(p, 1)..=block_node(p, self.size[p as usize]);
            let foreign = |node: u32| times[node as usize] > 0 && !own.contains(&node);
            if !listed || (1..=32 * self.pools).any(foreign) {
                return None;
            }
            let free = self.free[p as usize];
            let mut blocks = (0..).zip(own.clone());
            let right = blocks.all(|(bit, node)| times[node as usize] == free >> bit & 1);
            wrong |= u32::from(!right) << (p - 1);
        }
        Some(wrong)
    }
}

impl<const N: usize> Rings<N> {
    /// Counts who is listed from an anchor on, back to it, at most one more than n. False if the links lead to what is none of 1 to n.
    fn count(&self, anchor: u32, n: u32, times: &mut [u32]) -> bool {
        let mut node = self.next(anchor);
        for _ in 0..=n {
            if node == anchor {
                return true;
            }
            if !(1..=n).contains(&node) {
                return false;
            }
            times[node as usize] += 1;
            node = self.next(node);
        }
        true
    }
}
