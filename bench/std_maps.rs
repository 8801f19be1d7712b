//! The work of the program `speed`, with the maps of Rust's standard library, cloned for each stage.

use std::collections::BTreeMap;
use std::collections::btree_map::Entry;
use std::hint::black_box;
use std::time::{Duration, Instant};

const PER_SITTING: u32 = 48;
const ENTRIES: u32 = 256;
const QUESTIONS: u32 = 4096;
const WHOLE_CARDS: u32 = 64;
const SITTINGS: u32 = 8;
const HOUR: u32 = 3600;
const STEP: u32 = 1200;
const SHORT: u32 = 18;
const GREATEST: i64 = 1_000_000_000_000;

const GENERATORS: u32 = 16;

const NAMES: [&str; 16] = [
    "SG-01", "SG-02", "SG-03", "SG-04", "SG-05", "SG-06", "SG-07", "SG-08", "SG-09", "SG-10",
    "SG-11", "SG-12", "SG-13", "SG-14", "SG-15", "SG-16",
];

type Card = BTreeMap<u32, i64>;
type Sheet = BTreeMap<String, Card>;

#[derive(Debug)]
enum Refusal {
    NotLater,
    NameBroken,
    ReadingOutOfRange,
    MeasuredLater,
    ReadingThere,
    NoReading,
}

type Answer<T> = Result<T, Refusal>;

#[derive(Clone, Default)]
struct Line {
    stages: BTreeMap<u32, Sheet>,
}

struct Sitting {
    recorded: u32,
    sheet: Sheet,
}

fn check_name(name: &str) -> Answer<()> {
    let fits = (1..=16).contains(&name.len());
    let spelled = |byte: u8| matches!(byte, b'A'..=b'Z' | b'0'..=b'9' | b'-');
    if fits && name.bytes().all(spelled) {
        Ok(())
    } else {
        Err(Refusal::NameBroken)
    }
}

fn check_reading(reading: i64) -> Answer<()> {
    if (-GREATEST..=GREATEST).contains(&reading) {
        Ok(())
    } else {
        Err(Refusal::ReadingOutOfRange)
    }
}

impl Line {
    /// A sitting on a clone of the last stage's sheet.
    fn begin(&self, recorded: u32) -> Answer<Sitting> {
        let sheet = match self.stages.last_key_value() {
            Some((last, _)) if recorded <= *last => return Err(Refusal::NotLater),
            Some((_, sheet)) => sheet.clone(),
            None => Sheet::new(),
        };
        Ok(Sitting { recorded, sheet })
    }

    fn commit(&mut self, sitting: Sitting) {
        self.stages.insert(sitting.recorded, sitting.sheet);
    }

    fn card(&self, known: u32, name: &str) -> Answer<Option<&Card>> {
        check_name(name)?;
        let stage = self.stages.range(..=known).next_back();
        Ok(stage.and_then(|(_, sheet)| sheet.get(name)))
    }

    fn as_of(&self, known: u32, name: &str, measured: u32) -> Answer<Option<(u32, i64)>> {
        let card = self.card(known, name)?;
        let found = card.and_then(|card| card.range(..=measured).next_back());
        Ok(found.map(|(at, reading)| (*at, *reading)))
    }

    fn total(&self, known: u32, name: &str, from: u32, to: u32) -> Answer<(u32, i64)> {
        let Some(card) = self.card(known, name)? else {
            return Ok((0, 0));
        };
        let add = |(count, sum): (u32, i64), (_, reading): (&u32, &i64)| (count + 1, sum + reading);
        Ok(card.range(from..=to).fold((0, 0), add))
    }
}

impl Sitting {
    fn check(&self, name: &str, measured: u32) -> Answer<()> {
        check_name(name)?;
        if measured > self.recorded {
            return Err(Refusal::MeasuredLater);
        }
        Ok(())
    }

    fn record(&mut self, name: &str, measured: u32, reading: i64) -> Answer<()> {
        check_reading(reading)?;
        self.check(name, measured)?;
        if !self.sheet.contains_key(name) {
            self.sheet.insert(name.to_string(), Card::new());
        }
        let card = self.sheet.get_mut(name).ok_or(Refusal::NoReading)?;
        match card.entry(measured) {
            Entry::Occupied(_) => Err(Refusal::ReadingThere),
            Entry::Vacant(place) => {
                place.insert(reading);
                Ok(())
            }
        }
    }

    fn correct(&mut self, name: &str, measured: u32, reading: i64) -> Answer<()> {
        check_reading(reading)?;
        self.check(name, measured)?;
        let card = self.sheet.get_mut(name).ok_or(Refusal::NoReading)?;
        *card.get_mut(&measured).ok_or(Refusal::NoReading)? = reading;
        Ok(())
    }

    fn withdraw(&mut self, name: &str, measured: u32) -> Answer<()> {
        self.check(name, measured)?;
        let card = self.sheet.get_mut(name).ok_or(Refusal::NoReading)?;
        card.remove(&measured).ok_or(Refusal::NoReading)?;
        if card.is_empty() {
            self.sheet.remove(name);
        }
        Ok(())
    }
}

/// The same plan as in the program `speed`.
#[derive(Clone, Copy)]
struct Plan {
    sittings: u32,
    rounds: u32,
}

fn generator(i: u32) -> &'static str {
    NAMES[(i % GENERATORS) as usize]
}

fn recorded(sitting: u32) -> u32 {
    (sitting + 1) * HOUR
}

fn measured(sitting: u32, entry: u32) -> u32 {
    recorded(sitting) - entry / GENERATORS * STEP
}

fn microhertz(measured: u32) -> i64 {
    i64::from(measured) * 31 % 2_000_001 - 1_000_000
}

fn scattered(i: u32, bound: u32) -> u32 {
    i.wrapping_mul(7919) % bound
}

impl Plan {
    fn steps(&self) -> u32 {
        self.sittings * 3
    }

    fn last(&self) -> u32 {
        recorded(self.sittings - 1)
    }

    fn there(&self, i: u32) -> u32 {
        (scattered(i / GENERATORS, self.steps()) + 1) * STEP
    }

    fn between(&self, i: u32) -> u32 {
        self.there(i) - (1 + i % STEP)
    }

    fn known(&self, i: u32) -> u32 {
        recorded(scattered(i, self.sittings))
    }

    fn short_span(&self, i: u32) -> (u32, u32) {
        let from = scattered(i, self.steps() - SHORT) * STEP;
        (from + 1, from + SHORT * STEP)
    }
}

/// The least time that a number of calls took in any round.
struct Work {
    title: &'static str,
    calls: u32,
    least: Duration,
}

impl Work {
    fn new(title: &'static str, calls: u32) -> Work {
        Work {
            title,
            calls,
            least: Duration::MAX,
        }
    }

    fn take_round(&mut self, start: Instant) {
        self.least = self.least.min(start.elapsed());
    }

    fn print(&self) {
        println!("{}\t{}\t{}", self.title, self.calls, self.least.as_nanos());
    }
}

fn sit(line: &mut Line, first: u32, count: u32) -> Answer<()> {
    for sitting in first..first + count {
        let mut seat = line.begin(recorded(sitting))?;
        for entry in 0..PER_SITTING {
            let measured = measured(sitting, entry);
            seat.record(generator(entry), measured, microhertz(measured))?;
        }
        line.commit(seat);
    }
    Ok(())
}

fn time_entries(
    title: &'static str,
    line: &Line,
    plan: Plan,
    enter: impl Fn(&mut Sitting, u32) -> Answer<()>,
) -> Answer<()> {
    let mut work = Work::new(title, ENTRIES);
    for _ in 0..plan.rounds {
        let mut sitting = line.begin(recorded(plan.sittings))?;
        let start = Instant::now();
        for i in 0..ENTRIES {
            enter(&mut sitting, i)?;
        }
        work.take_round(start);
        black_box(&sitting.sheet);
    }
    work.print();
    Ok(())
}

fn time_questions(
    title: &'static str,
    count: u32,
    plan: Plan,
    ask: impl Fn(u32) -> Answer<i64>,
) -> Answer<(i64, Work)> {
    let mut work = Work::new(title, count);
    let mut answers = 0i64;
    for _ in 0..plan.rounds {
        let start = Instant::now();
        answers = 0;
        for i in 0..count {
            answers = answers.wrapping_add(ask(i)?);
        }
        work.take_round(start);
    }
    Ok((answers, work))
}

fn added((count, sum): (u32, i64)) -> i64 {
    sum.wrapping_add(i64::from(count))
}

fn time_all(plan: Plan) -> Answer<()> {
    let mut line = Line::default();
    sit(&mut line, 0, plan.sittings)?;

    let (a, as_of) = time_questions("as-of", QUESTIONS, plan, |i| {
        let found = line.as_of(plan.known(i), generator(i), plan.between(i))?;
        Ok(found.map_or(0, |(at, reading)| reading.wrapping_add(i64::from(at))))
    })?;
    let (b, short) = time_questions("total of 18 readings", QUESTIONS, plan, |i| {
        let (from, to) = plan.short_span(i);
        Ok(added(line.total(plan.last(), generator(i), from, to)?))
    })?;
    let (c, whole) = time_questions("total of a whole card", WHOLE_CARDS, plan, |i| {
        Ok(added(line.total(
            plan.last(),
            generator(i),
            0,
            plan.last(),
        )?))
    })?;
    println!("answers\t{}", a.wrapping_add(b).wrapping_add(c));
    time_entries("recording", &line, plan, |sitting, i| {
        sitting.record(generator(i), plan.between(i), i64::from(i))
    })?;
    time_entries("correcting", &line, plan, |sitting, i| {
        sitting.correct(generator(i), plan.there(i), i64::from(i))
    })?;
    time_entries("withdrawing", &line, plan, |sitting, i| {
        sitting.withdraw(generator(i), plan.there(i))
    })?;
    as_of.print();
    short.print();
    whole.print();

    let mut sitting = Work::new("sitting", SITTINGS);
    for _ in 0..plan.rounds {
        let mut branch = line.clone();
        let start = Instant::now();
        sit(&mut branch, plan.sittings, SITTINGS)?;
        sitting.take_round(start);
    }
    sitting.print();

    let mut branching = Work::new("branch and retire", 1);
    for _ in 0..plan.rounds {
        let start = Instant::now();
        drop(black_box(line.clone()));
        branching.take_round(start);
    }
    branching.print();

    drop(line);

    let mut filling = Work::new("sitting, while the log grows", plan.sittings);
    let mut retiring = Work::new("retire the log", 1);
    for _ in 0..plan.rounds {
        let mut line = Line::default();
        let start = Instant::now();
        sit(&mut line, 0, plan.sittings)?;
        filling.take_round(start);
        let start = Instant::now();
        drop(line);
        retiring.take_round(start);
    }
    filling.print();
    retiring.print();
    Ok(())
}

fn main() {
    let arguments: Vec<u32> = std::env::args()
        .skip(1)
        .flat_map(|text| text.parse())
        .collect();
    let [sittings, rounds] = arguments[..] else {
        eprintln!("two arguments: the sittings that fill the log, and the rounds");
        std::process::exit(2);
    };
    if let Err(why) = time_all(Plan { sittings, rounds }) {
        eprintln!("refused: {why:?}");
        std::process::exit(1);
    }
}
