//! Writes recordings for `bench/compare`, each as DIR/NAME.design, DIR/NAME.set, DIR/NAME.readings:
//! `record DIR COUNT` small ones of every kind, named 0, 1, .. by their seed, some of them damaged;
//! `record DIR hour` one of 1,440,000 beats, with the name hour.
use std::env;
use std::error::Error;
use std::fs;
use std::ops::RangeInclusive;
use std::path::Path;

/// A reading beyond this, on either side, is outside.
const REACH: i64 = 30_000;
const OUTSIDE: [i64; 4] = [REACH + 1, -REACH - 1, i16::MAX as i64, i16::MIN as i64];
/// The lengths of a fault that matter: a sensor is bad once it has differed for 40 beats on end.
const LENGTHS: [i64; 5] = [1, 39, 40, 41, 80];
/// Numbers that are out of most ranges, or out of the first one of a document.
const ODD: [i64; 7] = [0, 7, 25, -1, 1 << 32, i64::MIN, i64::MAX];
const HOUR: i64 = 400 * 3_600;

/// Numbers that look random and are the same for the same seed (SplitMix64).
struct Random {
    state: u64,
    /// Whether `edged` now and then goes one past an edge.
    strays: bool,
}

impl Random {
    fn new(seed: u64) -> Random {
        Random {
            state: seed,
            strays: false,
        }
    }

    fn next(&mut self) -> u64 {
        self.state = self.state.wrapping_add(0x9e37_79b9_7f4a_7c15);
        let mut z = self.state;
        z = (z ^ (z >> 30)).wrapping_mul(0xbf58_476d_1ce4_e5b9);
        z = (z ^ (z >> 27)).wrapping_mul(0x94d0_49bb_1331_11eb);
        z ^ (z >> 31)
    }

    fn within(&mut self, range: RangeInclusive<i64>) -> i64 {
        let size = range.end() - range.start() + 1;
        range.start() + (self.next() % size as u64) as i64
    }

    fn below(&mut self, end: usize) -> usize {
        self.within(0..=end as i64 - 1) as usize
    }

    fn one_in(&mut self, count: usize) -> bool {
        self.below(count) == 0
    }

    fn pick<T: Copy>(&mut self, values: &[T]) -> T {
        values[self.below(values.len())]
    }

    /// In the range, often at an edge of it or near 0, where ties and small divisors are.
    fn edged(&mut self, range: RangeInclusive<i64>) -> i64 {
        let (low, high) = (*range.start(), *range.end());
        let past = i64::from(self.strays && self.one_in(40));
        match self.below(4) {
            0 => low - past,
            1 => high + past,
            2 => self.within(-4..=4).clamp(low, high),
            _ => self.within(range),
        }
    }

    fn many(&mut self, count: usize, range: RangeInclusive<i64>) -> Vec<i64> {
        (0..count).map(|_| self.edged(range.clone())).collect()
    }
}

/// The three documents as bytes.
struct Recording {
    design: Vec<u8>,
    set: Vec<u8>,
    readings: Vec<u8>,
}

impl Recording {
    fn new(design: &[i64], set: &[i64]) -> Recording {
        let bytes = |numbers: &[i64]| numbers.iter().flat_map(|n| n.to_le_bytes()).collect();
        Recording {
            design: bytes(design),
            set: bytes(set),
            readings: Vec::new(),
        }
    }

    /// One number of a beat: the readings of the three sensors, and the padding.
    fn push(&mut self, three: [i64; 3]) {
        for reading in three {
            let reading = reading.clamp(i16::MIN.into(), i16::MAX.into()) as i16;
            self.readings.extend(reading.to_le_bytes());
        }
        self.readings.extend([0; 3]);
    }

    fn save(&self, dir: &Path, name: &str) -> Result<(), Box<dyn Error>> {
        fs::write(dir.join(format!("{name}.design")), &self.design)?;
        fs::write(dir.join(format!("{name}.set")), &self.set)?;
        Ok(fs::write(
            dir.join(format!("{name}.readings")),
            &self.readings,
        )?)
    }
}

fn worked_head() -> (Vec<i64>, Vec<i64>) {
    let design = vec![2, 110, 100, 90, 20, 0, 95, 0, 10, 50, 50, 2, 2, 7, 2, 1];
    let set = vec![4, 1, 0, 21, -1, 0, 21, 0, 1, 8, 0, -1, 8];
    (design, set)
}

fn random_head(random: &mut Random) -> (Vec<i64>, Vec<i64>) {
    let n = 1 + random.below(6);
    let over = random.edged(1..=1_000);
    let mut design = vec![n as i64, random.edged(1..=30_000), over];
    design.extend(random.many(n * n + n, -2_000..=2_000)); // a, b
    design.extend(random.many(n, (over + 1) / 2..=1_000_000)); // off
    design.push(random.edged(1..=1_000)); // over-law
    design.extend(random.many(n, -2_000..=2_000)); // k
    design.extend(random.many(n, 0..=1_000)); // noise
    let faces = random.edged(1..=24);
    let mut set = vec![faces];
    for _ in 0..faces {
        set.extend(random.many(n, -100..=100));
        set.push(random.edged(0..=3_000_000));
    }
    (design, set)
}

/// How a sensor reads while it is the faulty one.
#[derive(Clone, Copy)]
enum Fault {
    None,
    /// Above or below, so far past what it may differ from the middle: by 0 or 1.
    Far(i64),
    /// Stuck at one value for all numbers.
    Stuck(i64),
    /// One reading outside, also right beside a middle at the edge.
    Outside,
}

/// The readings of a design with these noises: honest sensors but for one, which changes; or else
/// three sensors that have nothing to do with each other.
fn record(random: &mut Random, recording: &mut Recording, noise: &[i64]) {
    let n = noise.len();
    let reach = random.pick(&[3, 3, 50, 2_000, REACH]);
    let unrelated = random.one_in(6);
    let refusing = random.one_in(3);
    let mut left = random.pick(&[0, 1, 39, 41, 150, 250]);
    while left > 0 {
        let fault = match random.below(6) {
            0 => Fault::None,
            1 => Fault::Far(0),
            2 | 3 => Fault::Far(1),
            4 => Fault::Stuck(random.edged(-REACH..=REACH)),
            _ => Fault::Outside,
        };
        let sensor = random.below(3);
        let beats = random.pick(&LENGTHS).min(left);
        left -= beats;
        for _ in 0..beats {
            let at = random.below(n); // the number that shows the fault
            let refused = refusing && random.one_in(20);
            for (i, &noise) in noise.iter().enumerate() {
                let noise = noise.max(0); // -1 where it strays
                let truth = random.edged(-reach..=reach);
                let mut three = [0; 3].map(|_| match unrelated {
                    true => random.within(-reach..=reach),
                    false => (truth + random.edged(-noise..=noise)).clamp(-REACH, REACH),
                });
                let others = [three[(sensor + 1) % 3], three[(sensor + 2) % 3]];
                let (low, high) = (others[0].min(others[1]), others[0].max(others[1]));
                match fault {
                    // where it is above or below both of the others, the middle is the nearer one
                    Fault::Far(past) if i == at => {
                        let far = 2 * noise + past;
                        three[sensor] = random.pick(&[low - far, high + far]);
                    }
                    Fault::Stuck(value) => three[sensor] = value,
                    Fault::Outside if i == at => three[sensor] = random.pick(&OUTSIDE),
                    _ => {}
                }
                if refused {
                    three = three.map(|reading| match random.below(n + 1) {
                        0 => random.pick(&OUTSIDE),
                        _ => reading,
                    });
                }
                recording.push(three);
            }
        }
    }
}

/// Damages one of the documents in one way.
fn damage(random: &mut Random, recording: &mut Recording) {
    let which = random.below(3);
    let bytes = match which {
        0 => &mut recording.design,
        1 => &mut recording.set,
        _ => &mut recording.readings,
    };
    let length = bytes.len();
    match random.below(12) {
        0 => bytes.truncate(random.below(length + 1)),
        1 => bytes.truncate(random.below(10)),
        2 => bytes.truncate(length.saturating_sub(1 + random.below(9))),
        3 => bytes.resize(length + 1 + random.below(20), 0),
        4 => *bytes = (0..300).map(|_| random.next() as u8).collect(),
        _ if length < 9 => bytes.clear(),
        _ if which == 2 => {
            let place = random.below(length / 9) * 9 + 6 + random.below(3);
            bytes[place] = 1 << random.below(8);
        }
        _ => {
            let index = random.below(length / 8) * random.below(4).min(1); // often 0, a size
            let number = random.pick(&ODD).to_le_bytes();
            bytes[8 * index..8 * index + 8].copy_from_slice(&number);
        }
    }
}

fn small(seed: u64) -> Recording {
    let mut random = Random::new(seed);
    random.strays = random.one_in(4);
    let (design, set) = match random.below(4) {
        0 => worked_head(),
        _ => random_head(&mut random),
    };
    random.strays = false;
    let mut recording = Recording::new(&design, &set);
    let n = design[0] as usize;
    record(&mut random, &mut recording, &design[design.len() - n..]);
    if random.one_in(3) {
        for _ in 0..random.pick(&[1, 1, 2, 3]) {
            damage(&mut random, &mut recording);
        }
    }
    recording
}

/// Six numbers that swing with the sea, under noise; the last sensor sticks half an hour in, and
/// every minute there is a beat that is refused.
fn hour() -> Recording {
    let mut random = Random::new(1);
    let mut design = vec![6, 30_000, 1_000];
    design.extend(random.many(42, -2_000..=2_000)); // a, b
    design.extend([1_000; 6]); // off
    design.push(1_000); // over-law
    design.extend([1_999, -1_571, 913, -377, 151, -53]); // k
    design.extend([40; 6]); // noise
    let set = [2, 1, 0, 0, 0, 0, 0, 21_000, -1, 0, 0, 0, 0, 0, 21_000];
    let mut recording = Recording::new(&design, &set);
    for beat in 0..HOUR {
        let seconds = beat as f64 / 400.0;
        for i in 0..6 {
            let truth = (9_000.0 * (seconds * (0.7 + 0.2 * i as f64)).sin()) as i64;
            let mut three = [0; 3].map(|_| truth + random.within(-40..=40));
            if beat >= HOUR / 2 {
                three[2] = 1_234;
            }
            if i == 3 && beat % 24_000 == 12_000 {
                three = [REACH + 1, truth, i16::MIN.into()];
            }
            recording.push(three);
        }
    }
    recording
}

fn main() -> Result<(), Box<dyn Error>> {
    let arguments: Vec<String> = env::args().collect();
    let [_, dir, what] = arguments.as_slice() else {
        return Err("usage: record DIR COUNT|hour".into());
    };
    let dir = Path::new(dir);
    if what == "hour" {
        return hour().save(dir, what);
    }
    (0..what.parse()?).try_for_each(|seed: u64| small(seed).save(dir, &seed.to_string()))
}
