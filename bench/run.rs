//! `run DESIGN SET READINGS` in plain Rust: the oracle that `bench/compare` holds the proved
//! program to, and the baseline for its speed. It is written from the description of the documents
//! and shares nothing with the crates.
use std::cmp::Ordering;
use std::env;
use std::ffi::OsString;
use std::fmt;
use std::fs;
use std::io::{self, BufWriter, Write};
use std::iter;
use std::ops::RangeInclusive;
use std::process::ExitCode;

const SENSORS: usize = 3;
/// The most numbers that a state has.
const NUMBERS: usize = 6;
const FACES: usize = 24;
/// The bytes of a number's readings: two for each sensor, then the padding.
const READ: usize = 2 * SENSORS;
const BLOCK: usize = 9;
/// A reading beyond this, on either side, is outside.
const REACH: i16 = 30_000;
/// A sensor is bad once it has differed for so many beats on end.
const PATIENCE: u32 = 40;

/// Why, and at which byte (or for a beat at which reading), documents or a beat are refused.
struct Refusal {
    number: u8,
    place: usize,
}

impl fmt::Display for Refusal {
    fn fmt(&self, f: &mut fmt::Formatter<'_>) -> fmt::Result {
        write!(f, "refused {} at {}", self.number, self.place)
    }
}

fn refused<T>(number: u8, place: usize) -> Result<T, Refusal> {
    Err(Refusal { number, place })
}

/// The numbers of a document, without a last one that is cut.
fn numbers(bytes: &[u8]) -> impl Iterator<Item = i64> + '_ {
    bytes.chunks_exact(8).map(|bytes| {
        bytes
            .iter()
            .rev()
            .fold(0, |number, &byte| number << 8 | i64::from(byte))
    })
}

/// The first number of a document, if it is there and a size from 1 to `most`.
fn size(bytes: &[u8], most: usize) -> Option<usize> {
    let size = usize::try_from(numbers(bytes).next()?).ok()?;
    (1..=most).contains(&size).then_some(size)
}

/// A document has as many numbers as its sizes ask for; while they are not known, a first one.
fn check_length(bytes: &[u8], count: Option<usize>) -> Result<(), Refusal> {
    let wanted = 8 * count.unwrap_or(1);
    match bytes.len().cmp(&wanted) {
        Ordering::Less => refused(1, bytes.len()),
        Ordering::Greater if count.is_some() => refused(1, wanted),
        _ => Ok(()),
    }
}

/// The readings are whole beats of `n` numbers, and their padding is zero.
fn check_readings(bytes: &[u8], n: usize) -> Result<(), Refusal> {
    if bytes.len() % (BLOCK * n) != 0 {
        return refused(1, bytes.len());
    }
    for (index, block) in bytes.chunks_exact(BLOCK).enumerate() {
        if let Some(byte) = block[READ..].iter().position(|&byte| byte != 0) {
            return refused(1, BLOCK * index + READ + byte);
        }
    }
    Ok(())
}

/// Each number of a document is in its range; else the refusal has the given number.
fn check_ranges(
    bytes: &[u8],
    ranges: impl Iterator<Item = RangeInclusive<i64>>,
    number: u8,
) -> Result<(), Refusal> {
    match numbers(bytes)
        .zip(ranges)
        .position(|(value, range)| !range.contains(&value))
    {
        Some(index) => refused(number, 8 * index),
        None => Ok(()),
    }
}

fn design_count(n: usize) -> usize {
    3 + n * n + 4 * n + 1
}

fn set_count(n: usize, faces: usize) -> usize {
    1 + faces * (n + 1)
}

fn design_ranges(n: usize, over: i64) -> impl Iterator<Item = RangeInclusive<i64>> {
    let half = over / 2 + over % 2; // `over + 1` might overflow here, where it is not checked yet
    let kinds = [
        (1, 1..=NUMBERS as i64), // n
        (1, 1..=30_000),         // U
        (1, 1..=1_000),          // over
        (n * n, -2_000..=2_000), // a
        (n, -2_000..=2_000),     // b
        (n, half..=1_000_000),   // off
        (1, 1..=1_000),          // over-law
        (n, -2_000..=2_000),     // k
        (n, 0..=1_000),          // noise
    ];
    kinds
        .into_iter()
        .flat_map(|(count, range)| iter::repeat_n(range, count))
}

fn set_ranges(n: usize) -> impl Iterator<Item = RangeInclusive<i64>> {
    let face = iter::repeat_n(-100..=100, n).chain(iter::once(0..=3_000_000));
    iter::once(1..=FACES as i64).chain(iter::repeat(face).flatten())
}

/// What the loop needs of a design.
struct Law {
    n: usize,
    over: i64,
    k: [i64; NUMBERS],
    noise: [i64; NUMBERS],
}

impl Law {
    /// The law of documents that are sound, or their first fault.
    fn of(design: &[u8], set: &[u8], readings: &[u8]) -> Result<Law, Refusal> {
        let n = size(design, NUMBERS);
        let faces = size(set, FACES);
        check_length(design, n.map(design_count))?;
        check_length(set, n.zip(faces).map(|(n, faces)| set_count(n, faces)))?;
        let Some(n) = n else {
            return refused(2, 0);
        };
        check_readings(readings, n)?;
        let values: Vec<i64> = numbers(design).collect();
        check_ranges(design, design_ranges(n, values[2]), 2)?;
        check_ranges(set, set_ranges(n), 3)?;

        let at_law = 3 + n * n + 2 * n;
        let row = |from: usize| {
            let mut row = [0; NUMBERS];
            row[..n].copy_from_slice(&values[from..from + n]);
            row
        };
        Ok(Law {
            n,
            over: values[at_law],
            k: row(at_law + 1),
            noise: row(at_law + 1 + n),
        })
    }
}

/// How long each sensor has differed, and whether it was ever called bad.
#[derive(Default)]
struct Alarms {
    counts: [u32; SENSORS],
    bad: [bool; SENSORS],
}

fn is_outside(reading: i16) -> bool {
    !(-REACH..=REACH).contains(&reading)
}

fn middle([a, b, c]: [i16; SENSORS]) -> i16 {
    a.min(b).max(a.max(b).min(c))
}

/// The whole number nearest to `value / over`, of two equally near the even one.
fn nearest(value: i64, over: i64) -> i64 {
    let below = value.div_euclid(over);
    match (2 * value.rem_euclid(over)).cmp(&over) {
        Ordering::Less => below,
        Ordering::Equal => below + below.rem_euclid(2),
        Ordering::Greater => below + 1,
    }
}

/// One beat: the answer to its readings, with the alarms moved on; or a refusal, with the alarms
/// as they were.
fn beat(law: &Law, alarms: &mut Alarms, bytes: &[u8]) -> Result<i64, Refusal> {
    let mut readings = [[0; SENSORS]; NUMBERS];
    for (three, block) in readings.iter_mut().zip(bytes.chunks_exact(BLOCK)) {
        for (reading, pair) in three.iter_mut().zip(block.chunks_exact(2)) {
            *reading = i16::from_le_bytes([pair[0], pair[1]]);
        }
    }
    let readings = &readings[..law.n];

    let outside =
        [0, 1, 2].map(|sensor| readings.iter().position(|three| is_outside(three[sensor])));
    if outside.iter().flatten().count() > 1 {
        let place = |(sensor, number): (usize, Option<usize>)| Some(8 * sensor + number?);
        let first = outside.into_iter().enumerate().find_map(place);
        return refused(9, first.unwrap_or(0));
    }

    let mut sum = 0;
    let mut differs = outside.map(|number| number.is_some());
    for (i, &three) in readings.iter().enumerate() {
        let y = i64::from(middle(three));
        sum += law.k[i] * y;
        for (differs, reading) in differs.iter_mut().zip(three) {
            *differs |= (i64::from(reading) - y).abs() > 2 * law.noise[i];
        }
    }
    for (sensor, differs) in differs.into_iter().enumerate() {
        let count = &mut alarms.counts[sensor];
        *count = if differs { PATIENCE.min(*count + 1) } else { 0 };
        alarms.bad[sensor] |= *count == PATIENCE;
    }
    Ok(nearest(-sum, law.over))
}

/// Prints a line for each beat of the readings.
fn run(law: &Law, readings: &[u8], out: &mut impl Write) -> io::Result<()> {
    let mut alarms = Alarms::default();
    for bytes in readings.chunks_exact(BLOCK * law.n) {
        match beat(law, &mut alarms, bytes) {
            Ok(answer) => write!(out, "{answer}")?,
            Err(refusal) => {
                writeln!(out, "{refusal}")?;
                continue;
            }
        }
        if alarms.bad.contains(&true) {
            write!(out, " bad")?;
            for sensor in (0..SENSORS).filter(|&sensor| alarms.bad[sensor]) {
                write!(out, " {sensor}")?;
            }
        }
        writeln!(out)?;
    }
    Ok(())
}

/// A line on standard error; unlike `eprintln!` it does not panic where nobody takes it.
fn complain(line: &str) -> ExitCode {
    let _ = writeln!(io::stderr(), "{line}");
    ExitCode::FAILURE
}

/// The bytes of the file, or a line on standard error that names it.
fn read(path: &OsString) -> Result<Vec<u8>, ExitCode> {
    fs::read(path).map_err(|error| complain(&format!("run: {}: {error}", path.to_string_lossy())))
}

fn answer(arguments: &[OsString]) -> Result<ExitCode, ExitCode> {
    let [design, set, readings] = arguments else {
        return Err(complain("usage: run DESIGN SET READINGS"));
    };
    let (design, set, readings) = (read(design)?, read(set)?, read(readings)?);
    let mut out = BufWriter::new(io::stdout().lock());
    let (written, status) = match Law::of(&design, &set, &readings) {
        Ok(law) => (run(&law, &readings, &mut out), ExitCode::SUCCESS),
        Err(refusal) => (writeln!(out, "{refusal}"), ExitCode::FAILURE),
    };
    match written.and_then(|()| out.flush()) {
        Ok(()) => Ok(status),
        Err(_) => Err(ExitCode::FAILURE), // nobody reads on
    }
}

fn main() -> ExitCode {
    let arguments: Vec<OsString> = env::args_os().skip(1).collect();
    answer(&arguments).unwrap_or_else(|status| status)
}
