//! A display's brightness over the kernel: a curve from lux to level, and a light whose task asks for readings by rcv_msg.
//!
//! A reading is a message: its number names a slot with its lux. A wait that is broken off leaves the level as it was.
//!
//! ```
//! use okrozumba::brightness::{Curve, Light, News};
//! use okrozumba::{Context, State};
//!
//! // One priority; two tasks, both started; one mailbox; one message; nothing else.
//! let words: [u32; 11] = [1, 2, 1, 1, 1, 1, 0, 0, 1, 1, 0];
//! let setup: Vec<u8> = words.iter().flat_map(|word| word.to_le_bytes()).collect();
//! let mut kernel = State::start(&setup).unwrap();
//!
//! let curve = Curve::of(&[(10, 8), (50, 28), (1000, 100)]);
//! let mut light = Light::first(&curve).unwrap();
//! assert_eq!(light.level, 8);
//!
//! // Task 1 waits for a reading, and task 2 breaks the wait off.
//! assert_eq!(kernel.receive(&curve, &[30], &mut light, 1), Ok(News::Waits));
//! kernel.rel_wai(Context::Task, 1);
//! kernel.rot_rdq(Context::Task, 0);
//! assert_eq!(kernel.resumed(&curve, &[30], &mut light), Ok(News::Stays));
//! assert_eq!(light.level, 8);
//!
//! // A message lies in the mailbox: its slot has 30 lux.
//! kernel.snd_msg(Context::Task, 1, 1);
//! assert_eq!(kernel.receive(&curve, &[30], &mut light, 1), Ok(News::Set));
//! assert_eq!(light.level, 18);
//! ```
use crate::{archive, State};

/// Points that a curve has room for.
pub const POINTS: usize = 16;
/// Slots that count; later ones are ignored.
pub const SLOTS: usize = 256;

/// A brightness curve: its first `count` points, 1 to 16. Lux is 0..65535 and strictly rises, level is 0..255 and never falls.
#[repr(C)]
#[derive(Clone, Copy, PartialEq, Eq, Debug)]
pub struct Curve {
    /// How many points count.
    pub count: u32,
    /// The lux of each.
    pub lux: [u32; POINTS],
    /// The level of each.
    pub level: [u32; POINTS],
}

/// The first bad point of a curve, counted from 1; 0 for a bad count.
#[derive(Clone, Copy, PartialEq, Eq, Debug)]
pub struct BadPoint(pub u32);

/// What a display shows, and the task that waits for a reading, 0 if none does. A light belongs to one task.
#[repr(C)]
#[derive(Clone, Copy, PartialEq, Eq, Debug)]
pub struct Light {
    /// The level.
    pub level: u32,
    /// The task.
    pub waits: u32,
}

/// What became of an arrival.
#[derive(Clone, Copy, PartialEq, Eq, Debug)]
pub enum News {
    /// A reading was taken: the level is the curve's there.
    Set,
    /// No reading has arrived: the task waits for one.
    Waits,
    /// The code was not 0: the level stays as it was.
    Stays,
    /// The message number is 0 or beyond the slots: the level stays as it was.
    NoSlot,
}

impl Curve {
    /// A curve of points, lux and level. More points than there is room for make a bad count.
    pub fn of(points: &[(u32, u32)]) -> Curve {
        let mut curve = Curve {
            count: points.len() as u32,
            lux: [0; POINTS],
            level: [0; POINTS],
        };
        for (i, &(lux, level)) in points.iter().take(POINTS).enumerate() {
            (curve.lux[i], curve.level[i]) = (lux, level);
        }
        curve
    }

    /// The count is judged first, then each point whole before the next.
    pub fn judge(&self) -> Result<(), BadPoint> {
        // SAFETY: a struct by value.
        let judgement = unsafe { archive::okrozumba_curve_judge(*self) };
        match judgement.number {
            0 => Ok(()),
            1 => Err(BadPoint(judgement.point)),
            _ => panic!("the archive said what its header doesn't have"),
        }
    }

    /// The level at a lux, however large. Between two points it is on the straight line, rounded down; outside the ends it is the end level.
    pub fn level(&self, lux: u32) -> Result<u32, BadPoint> {
        // SAFETY: a struct by value.
        let level = unsafe { archive::okrozumba_curve_level(*self, lux) };
        match level.number {
            0 => Ok(level.value),
            1 => Err(BadPoint(level.value)),
            _ => panic!("the archive said what its header doesn't have"),
        }
    }
}

/// The light of a display, and its news.
fn told(display: archive::Display, light: &mut Light) -> Result<News, BadPoint> {
    *light = display.light;
    match display.news {
        0 => Ok(News::Set),
        1 => Ok(News::Waits),
        2 => Ok(News::Stays),
        3 => Ok(News::NoSlot),
        4 => Err(BadPoint(display.point)),
        _ => panic!("the archive said what its header doesn't have"),
    }
}

impl Light {
    /// The light that a display starts with: the level of the curve's first point, and nobody waits.
    pub fn first(curve: &Curve) -> Result<Light, BadPoint> {
        let mut light = Light { level: 0, waits: 0 };
        // SAFETY: a struct by value.
        told(
            unsafe { archive::okrozumba_light_first(*curve) },
            &mut light,
        )?;
        Ok(light)
    }

    /// What the code and the word of an arrival make of the light: with code 0 the word is a message number, which names a slot, counted from
    /// 1, and the level becomes the curve's at its lux. A bad curve leaves the light as it was.
    pub fn take(
        &mut self,
        curve: &Curve,
        slots: &[u32],
        code: i32,
        word: u32,
    ) -> Result<News, BadPoint> {
        // SAFETY: the pointer goes with its slice's length, all else is by value.
        let display = unsafe {
            archive::okrozumba_light_take(*curve, slots.as_ptr(), slots.len(), *self, code, word)
        };
        told(display, self)
    }
}

impl State {
    /// The running task asks a mailbox for a reading: a message that lies there is taken at once, else the task waits. A bad curve is refused
    /// before the call, and light and kernel are as they were.
    pub fn receive(
        &mut self,
        curve: &Curve,
        slots: &[u32],
        light: &mut Light,
        mailbox: i32,
    ) -> Result<News, BadPoint> {
        // SAFETY: the pointer goes with its slice's length, and the borrows keep all apart.
        let display = unsafe {
            archive::okrozumba_light_receive(
                &mut self.words,
                &mut self.messages,
                *curve,
                slots.as_ptr(),
                slots.len(),
                *light,
                mailbox,
            )
        };
        told(display, light)
    }

    /// For when the task that waits for a reading runs again: what its cell holds is taken, and nobody waits any more. While another task
    /// runs: [`News::Waits`], and the light as it was.
    pub fn resumed(
        &self,
        curve: &Curve,
        slots: &[u32],
        light: &mut Light,
    ) -> Result<News, BadPoint> {
        // SAFETY: as in `receive`.
        let display = unsafe {
            archive::okrozumba_light_resumed(
                &self.words,
                &self.messages,
                *curve,
                slots.as_ptr(),
                slots.len(),
                *light,
            )
        };
        told(display, light)
    }
}
