//! Figures and months behind the C functions: random runs in random parts against the second kernel's own counts, records made up around 2^32, and
//! every order of refusals.
use crate::Verdict;
use okrozumba::figures::{month, Counter, NoReport, Record, COUNTS, RECORDS};
use okrozumba::recorder::{BadRun, Said};
use okrozumba::Fault;
use second::figures::Figures;
use second::random::Random;
use second::recording::Recording;
use second::script::SIZES;

const RUNS: usize = 64;
const EVENTS_MOST: u32 = 600;
const EVENT: usize = 20;
const MOST: u64 = u32::MAX as u64;
/// What an output holds before.
const OLD: u32 = 0xdead_beef;

fn expect<T: PartialEq + std::fmt::Debug>(what: &str, got: T, expected: T) -> Result<(), String> {
    if got == expected {
        Ok(())
    } else {
        Err(format!("{what}: got {got:?}, expected {expected:?}"))
    }
}

const NOTHING: Record = Record {
    counts: [0; COUNTS],
};

/// A record of zeros but for one number.
fn one(place: usize, count: u32) -> Record {
    let mut record = NOTHING;
    record.counts[place] = count;
    record
}

/// The answer, by exact sums; where there is no report the output is as it was.
fn judge(what: &str, records: &[Record], size: usize) -> Result<(), String> {
    let mut sums = [0u64; COUNTS];
    for record in records {
        for (sum, n) in sums.iter_mut().zip(record.counts) {
            *sum += n as u64;
        }
    }
    let expected = if records.len() > RECORDS {
        Err(NoReport::T1)
    } else if size != COUNTS {
        Err(NoReport::T2)
    } else if sums.iter().any(|sum| *sum > MOST) {
        Err(NoReport::T3)
    } else {
        Ok(())
    };
    let mut out = vec![OLD; size];
    expect(what, month(records, &mut out), expected)?;
    let holds = match expected {
        Ok(()) => sums.map(|sum| sum as u32).to_vec(),
        Err(_) => vec![OLD; size],
    };
    expect(what, out, holds)
}

/// A run in parts of random sizes, some of them empty; the refusal that was said, if any.
fn counted(random: &mut Random, bytes: &[u8]) -> (Counter, Said) {
    let mut counter = Counter::new();
    let mut rest = bytes;
    while !rest.is_empty() {
        let (part, behind) = rest.split_at(random.below(1 + rest.len().min(300) as u32) as usize);
        if let said @ Said::Refused(_) = counter.part(part) {
            return (counter, said);
        }
        rest = behind;
    }
    let said = counter.end();
    (counter, said)
}

/// Random runs, every fourth cut, and their month.
fn runs(random: &mut Random) -> Result<u64, String> {
    let (mut records, mut events) = (Vec::new(), 0);
    for i in 0..RUNS {
        let many = 1 + random.below(EVENTS_MOST) as usize;
        let run = Recording::drawn(random, SIZES[i % SIZES.len()], many);
        let mut bytes = run.bytes();
        let (mut whole, mut end) = (many, Said::Taken);
        if i % 4 == 3 {
            let lost = 1 + random.below((many * EVENT) as u32 - 1) as usize;
            bytes.truncate(bytes.len() - lost);
            whole = many - lost.div_ceil(EVENT);
            end = Said::Refused(BadRun {
                fault: Fault::S1,
                place: bytes.len() / 4 * 4,
            });
        }
        let (counter, said) = counted(random, &bytes);
        expect("the end of a run", said, end)?;
        let seen = Figures::of(&run, whole);
        let record = counter.record();
        expect(
            "a record",
            record.counts.map(u64::from).to_vec(),
            seen.counts.to_vec(),
        )?;
        events += seen.events;
        records.push(record);
    }
    judge("a month of runs", &records, COUNTS)?;
    Ok(events)
}

/// A byte behind a refusal, and one behind the end: neither is counted.
fn closed() -> Result<(), String> {
    let mut counter = Counter::new();
    let refused = Said::Refused(BadRun {
        fault: Fault::S2,
        place: 0,
    });
    expect("no priority", counter.part(&[0; 4]), refused)?;
    expect("a byte behind", counter.part(&[1]), Said::Closed)?;
    expect("nothing behind", counter.part(&[]), Said::Taken)?;
    expect("a refused setup", counter.record(), NOTHING)?;
    let mut counter = Counter::new();
    counter.end();
    expect("a byte behind the end", counter.part(&[1]), Said::Closed)
}

/// T3 exactly where a total is beyond 2^32 - 1: at each place, in two records and in 64 whose counts add up to just that or to one more.
fn around(random: &mut Random) -> Result<usize, String> {
    let mut months = 0;
    for place in 0..COUNTS {
        for (a, b) in [
            (u32::MAX, 0),
            (u32::MAX, 1),
            (1 << 31, 1 << 31),
            ((1 << 31) - 1, 1 << 31),
        ] {
            judge("two records", &[one(place, a), one(place, b)], COUNTS)?;
            months += 1;
        }
        for total in [MOST - 1, MOST, MOST + 1] {
            let mut left = total;
            let mut records: Vec<Record> = (1..RECORDS)
                .map(|_| {
                    let n = random.below(u32::MAX / RECORDS as u32);
                    left -= n as u64;
                    one(place, n)
                })
                .collect();
            // the rest, which may not fit one word, in the first and in the last
            records[0].counts[place] += (left / 2) as u32;
            records.push(one(place, (left - left / 2) as u32));
            judge("64 records", &records, COUNTS)?;
            months += 1;
        }
    }
    for _ in 0..1000 {
        let most = [1 << 20, 1 << 26, u32::MAX][random.below(3) as usize];
        let many = random.below(RECORDS as u32 + 1) as usize;
        let drawn = |_| Record {
            counts: std::array::from_fn(|_| random.below(most)),
        };
        let records: Vec<Record> = (0..many).map(drawn).collect();
        judge("drawn records", &records, COUNTS)?;
        months += 1;
    }
    Ok(months)
}

/// Each of the eight ways in which refusals meet.
fn orders() -> Result<usize, String> {
    let mut months = 0;
    for many in [0, 1, RECORDS - 1, RECORDS, RECORDS + 1, 1000] {
        for size in [0, 1, COUNTS - 1, COUNTS, COUNTS + 1, 1000] {
            for count in [0, 1, u32::MAX] {
                judge("orders", &vec![one(COUNTS - 1, count); many], size)?;
                months += 1;
            }
        }
    }
    Ok(months)
}

pub fn check() -> Verdict {
    let mut random = Random::new(253);
    let events = runs(&mut random)?;
    closed()?;
    let months = around(&mut random)?;
    let refusals = orders()?;
    Ok(format!(
        "{RUNS} runs in parts, {events} events; {months} months around 2^32, {refusals} orders of refusals"
    ))
}
