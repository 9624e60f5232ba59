//! The brightness curve and a light, from request K14 alone, in integers of 128 bits.
use crate::plain::{Event, Plain};
use crate::random::Random;

const POINTS: std::ops::RangeInclusive<usize> = 1..=16;
const LUX_MOST: i128 = 65535;
const LEVEL_MOST: i128 = 255;
const SLOTS: usize = 256;
const RCV_MSG: i32 = 21;

/// Points of lux and level.
#[derive(Clone, Debug)]
pub struct Points(pub Vec<(u32, u32)>);

fn wide((lux, level): (u32, u32)) -> (i128, i128) {
    (i128::from(lux), i128::from(level))
}

impl Points {
    /// The first bad point, 0 for a bad count.
    pub fn judge(&self) -> Result<(), u32> {
        if !POINTS.contains(&self.0.len()) {
            return Err(0);
        }
        for (i, &point) in self.0.iter().enumerate() {
            let (lux, level) = wide(point);
            let before = i.checked_sub(1).map(|b| wide(self.0[b]));
            let follows = before.is_none_or(|(x, y)| x < lux && y <= level);
            if lux > LUX_MOST || level > LEVEL_MOST || !follows {
                return Err(i as u32 + 1);
            }
        }
        Ok(())
    }

    /// Of a good curve.
    pub fn level(&self, lux: u32) -> u32 {
        let lux = i128::from(lux);
        let (first, last) = (wide(self.0[0]), wide(self.0[self.0.len() - 1]));
        let level = if lux <= first.0 {
            first.1
        } else if lux >= last.0 {
            last.1
        } else {
            let above = self.0.iter().position(|&p| wide(p).0 > lux).unwrap();
            let ((x, y), (u, v)) = (wide(self.0[above - 1]), wide(self.0[above]));
            y + ((lux - x) * (v - y)).div_euclid(u - x)
        };
        u32::try_from(level).unwrap()
    }

    /// A good one: so many points, in a part of the range, at times steep or flat.
    pub fn good(random: &mut Random, count: usize) -> Points {
        let mut lux = Vec::new();
        let span = random.pick(&[20, 300, 5000, 65536]);
        let low = random.below(65537 - span);
        while lux.len() < count {
            let drawn = low + random.below(span);
            if !lux.contains(&drawn) {
                lux.push(drawn);
            }
        }
        let top = random.pick(&[1, 4, 256]);
        let mut level: Vec<u32> = (0..count).map(|_| random.below(top)).collect();
        lux.sort();
        level.sort();
        Points(lux.into_iter().zip(level).collect())
    }
}

/// What became of an arrival.
#[derive(Clone, Copy, PartialEq, Eq, Debug)]
pub enum News {
    Set,
    Waits,
    Stays,
    NoSlot,
}

/// The level, and the task that waits for a reading.
#[derive(Clone, Copy, PartialEq, Eq, Debug)]
pub struct Light {
    pub level: u32,
    pub waits: u32,
}

impl Light {
    pub fn first(curve: &Points) -> Result<Light, u32> {
        curve.judge()?;
        Ok(Light {
            level: curve.0[0].1,
            waits: 0,
        })
    }

    pub fn take(
        &mut self,
        curve: &Points,
        slots: &[u32],
        code: i32,
        word: u32,
    ) -> Result<News, u32> {
        curve.judge()?;
        if code != 0 {
            return Ok(News::Stays);
        }
        let named = slots.iter().take(SLOTS).zip(1..).find(|(_, k)| *k == word);
        let Some((&lux, _)) = named else {
            return Ok(News::NoSlot);
        };
        self.level = curve.level(lux);
        Ok(News::Set)
    }

    /// By the second kernel's rcv_msg.
    pub fn receive(
        &mut self,
        plain: &mut Plain,
        curve: &Points,
        slots: &[u32],
        mailbox: i32,
    ) -> Result<News, u32> {
        curve.judge()?;
        let caller = plain.running().unwrap_or(0);
        let answer = plain.event(Event::Call {
            context: 0,
            number: RCV_MSG,
            a: mailbox,
            b: 0,
            c: 0,
        });
        match answer.code {
            1 => {
                self.waits = caller;
                return Ok(News::Waits);
            }
            0 => self.waits = 0,
            _ => {}
        }
        self.take(curve, slots, answer.code, answer.w1)
    }

    /// By the second kernel's running task and its cell.
    pub fn resumed(&mut self, plain: &Plain, curve: &Points, slots: &[u32]) -> Result<News, u32> {
        curve.judge()?;
        let runs = plain.running().unwrap_or(0);
        if self.waits != runs {
            return Ok(News::Waits);
        }
        let (code, word) = plain.cell(runs as i32);
        self.waits = 0;
        self.take(curve, slots, code, word)
    }
}
