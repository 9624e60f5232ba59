//! Runs for the tests: the shipped ones, and random ones.
use std::fs;
use std::path::Path;

use crate::picture::model::{Picture, Range};
use crate::run::Five;

/// A file with its name.
pub struct Sample {
    pub name: String,
    pub bytes: Vec<u8>,
}

/// The files of a folder of the repository with an ending.
pub fn files(folder: &str, ending: &str) -> Vec<Sample> {
    let folder = Path::new(env!("CARGO_MANIFEST_DIR"))
        .join("..")
        .join(folder);
    let mut samples = Vec::new();
    for entry in fs::read_dir(folder).expect("the repository has that folder") {
        let path = entry.expect("a folder's entries can be read").path();
        if path.extension().is_some_and(|found| found == ending) {
            samples.push(Sample {
                name: path.display().to_string(),
                bytes: fs::read(&path).expect("its files can be read"),
            });
        }
    }
    assert!(!samples.is_empty());
    samples
}

/// The shipped runs, refused ones too.
pub fn shipped() -> Vec<Sample> {
    files("examples/runs", "run")
}

/// Numbers from a seed (SplitMix64).
pub struct Random(pub u64);

impl Random {
    fn word(&mut self) -> u32 {
        self.0 = self.0.wrapping_add(0x9e37_79b9_7f4a_7c15);
        let mut z = self.0;
        z = (z ^ (z >> 30)).wrapping_mul(0xbf58_476d_1ce4_e5b9);
        z = (z ^ (z >> 27)).wrapping_mul(0x94d0_49bb_1331_11eb);
        ((z ^ (z >> 31)) >> 32) as u32
    }

    pub fn within(&mut self, low: u32, high: u32) -> u32 {
        low + self.word() % (high - low + 1)
    }
}

/// The words of an accepted setup with all eight sections.
pub fn setup(random: &mut Random) -> Vec<u32> {
    let priorities = random.within(1, 16);
    let tasks = random.within(1, 32);
    let mut words = vec![priorities, tasks];
    for _ in 0..tasks {
        words.extend([random.within(1, priorities), random.within(0, 1)]);
    }
    for (most, low, high) in [(16, 0, 65535), (16, 0, u32::MAX - 1)] {
        let count = random.within(0, most);
        words.push(count);
        words.extend((0..count).map(|_| random.within(low, high)));
    }
    words.extend([random.within(0, 16), random.within(0, 256)]);
    let pools = random.within(0, 8);
    words.push(pools);
    words.extend((0..pools).map(|_| random.within(1, 32)));
    let counters = random.within(0, 1);
    words.push(counters);
    if counters == 1 {
        words.push(random.within(1, 65535));
        for _ in 0..8 {
            words.extend([random.within(1, tasks), random.within(0, 1)]);
        }
    }
    words
}

/// Mostly events as people write them; else any words.
fn event(random: &mut Random) -> Five {
    let mut small = |high| random.within(0, high) as i32;
    let (kind, call) = (small(5), small(41));
    let words = [small(4), small(4), small(3)];
    let any = small(5) == 0;
    let quiet = small(1) == 0;
    if any {
        [(); 5].map(|()| random.word() as i32 >> random.within(0, 31))
    } else if quiet && kind > 1 {
        [kind, 0, 0, 0, 0]
    } else {
        [kind, call, words[0], words[1] - 1, words[2]]
    }
}

/// A random run: its bytes and its events.
pub fn drawn(seed: u64, many: usize) -> (Vec<u8>, Vec<Five>) {
    let mut random = Random(seed);
    let mut words = setup(&mut random);
    let events: Vec<Five> = (0..many).map(|_| event(&mut random)).collect();
    words.push(many as u32);
    words.extend(events.iter().flatten().map(|word| *word as u32));
    let bytes = words.iter().flat_map(|word| word.to_le_bytes()).collect();
    (bytes, events)
}

/// The picture of a random run, with a title that must be escaped.
pub fn picture(seed: u64) -> Picture {
    let (bytes, _) = drawn(seed, 60);
    Picture::of("a <run> & \"more\"", &bytes, Range::default()).expect("it has a picture")
}
