//! Runs the engine's demand call and its remainder call beside the independent implementation, and holds
//! its version to that of the header.
//! One line a group of inputs: how many were compared, how often the remainder was 0, and `ok` or
//! the first difference.
//! The exit status is 0 only if no group differs.

#[path = "../comparisons/engine.rs"]
mod engine;

use independent::comparisons::report::{few, inputs, verdict};
use independent::generators::random::Random;
use independent::generators::sample::MARKED_CASES;
use independent::model::demand::{
    demand, demand_by_scan, demand_remainder, demand_remainder_by_scan,
};
use independent::model::demand::{HIGHEST_CE, HIGHEST_M2};
use independent::model::version::{version_number, HEADER};
use independent::BEYOND_BOUNDS;
use independent::{host_number, Answer};
use std::process::ExitCode;

/// The call's arguments in its order: CE, D, M1, M2, p.
type Call = [u64; 5];

const REFUSED: Answer = Err(BEYOND_BOUNDS);

/// The answers to the two calls.
#[derive(Clone, Copy, Debug, PartialEq, Eq)]
struct Answers {
    demand: Answer,
    remainder: Answer,
}

fn main() -> ExitCode {
    // Each group is reported when it is done, also behind one that differs.
    let fixed = FIXED.map(|group| group().report());
    let generated = GENERATED.map(|(name, generate)| generated(name, generate).report());
    verdict([version()].iter().chain(&fixed).chain(&generated))
}

/// Prints the line of the version; true if it is that of the header.
fn version() -> bool {
    let (engine, header) = (engine::engine_version(), version_number(HEADER));
    let same = header == Some(engine);
    let verdict = if same {
        "ok".into()
    } else {
        format!("engine {engine}, independent {header:?}")
    };
    println!("version of the header: 1 compared: {verdict}");
    same
}

const FIXED: [fn() -> Group; 6] = [
    marked_cases,
    edges,
    greatest_numbers,
    raised_numbers,
    sweeps,
    small_box,
];

type Generator = fn(&mut Random) -> Call;

const GENERATED: [(&str, Generator); 7] = [
    ("generated, small settings", small),
    ("generated, medium settings", medium),
    ("generated, whole range", whole_range),
    ("generated, maximal settings", maximal),
    ("generated, whole quotients or one off", whole_quotients),
    ("generated, near the bounds", near_bounds),
    ("generated, malformed", malformed),
];

/// Inputs of each generated group.
const GENERATED_INPUTS: u64 = 100_000;

/// Inputs compared under one name: how many of each answer, and the first difference.
struct Group {
    name: &'static str,
    demands: u64,
    refusals: u64,
    /// Demands with remainder 0.
    whole: u64,
    difference: Option<String>,
}

impl Group {
    fn new(name: &'static str) -> Group {
        Group {
            name,
            demands: 0,
            refusals: 0,
            whole: 0,
            difference: None,
        }
    }

    /// Compares the engine with the independent implementation's answers to the same input.
    fn compare(&mut self, call: Call, independent: Answers) {
        let [ce, d, m1, m2, p] = call;
        let Answers { demand, remainder } = independent;
        for (name, engine, independent) in [
            ("demand", engine::demand(ce, d, m1, m2, p), demand),
            (
                "remainder",
                engine::demand_remainder(ce, d, m1, m2, p),
                remainder,
            ),
        ] {
            if engine != host_number(independent) {
                let why = format!("{name}: engine {engine}, independent {independent:?}");
                self.differ(call, why);
            }
        }
        match demand {
            Ok(_) => self.demands += 1,
            Err(_) => self.refusals += 1,
        }
        self.whole += u64::from(remainder == Ok(0));
    }

    /// Holds both implementations to an answer that is written out, so that an error which
    /// they have in common shows.
    fn compare_stated(&mut self, call: Call, demand: Answer, remainder: Answer) {
        let stated = Answers { demand, remainder };
        let independent = answers(call);
        if independent != stated {
            self.differ(
                call,
                format!("independent {independent:?}, stated {stated:?}"),
            );
        }
        self.compare(call, independent);
    }

    fn differ(&mut self, [ce, d, m1, m2, p]: Call, answers: String) {
        self.difference
            .get_or_insert_with(|| format!("CE {ce}, D {d}, M1 {m1}, M2 {m2}, p {p}: {answers}"));
    }

    /// Prints the group's line; true if nothing differed.
    fn report(&self) -> bool {
        let verdict = match &self.difference {
            None => "ok",
            Some(difference) => difference,
        };
        println!(
            "{}: {} compared ({} demands, {} refusals; remainder 0 {}, above 0 {}): {verdict}",
            self.name,
            self.demands + self.refusals,
            self.demands,
            self.refusals,
            self.whole,
            self.demands - self.whole
        );
        self.difference.is_none()
    }
}

fn answers([ce, d, m1, m2, p]: Call) -> Answers {
    Answers {
        demand: demand(ce, d, m1, m2, p),
        remainder: demand_remainder(ce, d, m1, m2, p),
    }
}

/// The paper's ten, with its numbers, and remainders from the fraction.
fn marked_cases() -> Group {
    let mut group = Group::new("marked cases");
    for (call, quantity, remainder) in MARKED_CASES {
        group.compare_stated(call, Ok(quantity), Ok(remainder));
    }
    group
}

/// Each bound broken alone, at its edge, and kept by one. Kept, the price is the floor, CE or
/// 2 × CE, where demand is M2, D or M1, all without a remainder.
const EDGES: [(Call, Answer); 35] = [
    // CE even, 2 to 500,000.
    ([0, 1_000, 900, 1_200, 0], REFUSED),
    ([1, 1_000, 900, 1_200, 1], REFUSED),
    ([2, 1_000, 900, 1_200, 2], Ok(1_000)),
    ([3, 1_000, 900, 1_200, 3], REFUSED),
    ([4, 1_000, 900, 1_200, 4], Ok(1_000)),
    ([499_999, 1_000, 900, 1_200, 499_999], REFUSED),
    ([500_000, 1_000, 900, 1_200, 500_000], Ok(1_000)),
    ([500_001, 1_000, 900, 1_200, 500_001], REFUSED),
    ([500_002, 1_000, 900, 1_200, 500_002], REFUSED),
    // 0 < M1.
    ([20_000, 1_000, 0, 1_200, 20_000], REFUSED),
    ([20_000, 1_000, 1, 1_200, 40_000], Ok(1)),
    // M1 < D.
    ([20_000, 1_000, 999, 1_200, 40_000], Ok(999)),
    ([20_000, 1_000, 1_000, 1_200, 20_000], REFUSED),
    ([20_000, 1_000, 1_001, 1_200, 20_000], REFUSED),
    ([20_000, 901, 900, 1_200, 20_000], Ok(901)),
    ([20_000, 0, 900, 1_200, 20_000], REFUSED),
    // D < M2.
    ([20_000, 1_199, 900, 1_200, 20_000], Ok(1_199)),
    ([20_000, 1_200, 900, 1_200, 20_000], REFUSED),
    ([20_000, 1_201, 900, 1_200, 20_000], REFUSED),
    ([20_000, 1_000, 900, 1_001, 10_000], Ok(1_001)),
    ([20_000, 1_000, 900, 0, 20_000], REFUSED),
    // M2 <= 10^11.
    (
        [20_000, 1_000, 900, 100_000_000_000, 10_000],
        Ok(100_000_000_000),
    ),
    ([20_000, 1_000, 900, 100_000_000_001, 20_000], REFUSED),
    // p from the floor to 2 × CE.
    ([20_000, 1_000, 900, 1_200, 9_999], REFUSED),
    ([20_000, 1_000, 900, 1_200, 10_000], Ok(1_200)),
    ([20_000, 1_000, 900, 1_200, 40_000], Ok(900)),
    ([20_000, 1_000, 900, 1_200, 40_001], REFUSED),
    ([2, 1_000, 900, 1_200, 0], REFUSED),
    ([2, 1_000, 900, 1_200, 1], Ok(1_200)),
    ([2, 1_000, 900, 1_200, 4], Ok(900)),
    ([2, 1_000, 900, 1_200, 5], REFUSED),
    ([500_000, 1_000, 900, 1_200, 249_999], REFUSED),
    ([500_000, 1_000, 900, 1_200, 250_000], Ok(1_200)),
    ([500_000, 1_000, 900, 1_200, 1_000_000], Ok(900)),
    ([500_000, 1_000, 900, 1_200, 1_000_001], REFUSED),
];

fn edges() -> Group {
    let mut group = Group::new("edges of the bounds");
    for (call, stated) in EDGES {
        group.compare_stated(call, stated, stated.map(|_| 0));
    }
    group
}

/// Sound settings, asked at p = CE.
const SOUND: Call = [20_000, 1_000, 900, 1_200, 20_000];

/// Sets of the five places, one binary digit a place; the empty set is left out.
const SETS_OF_PLACES: std::ops::Range<u32> = 1..1 << SOUND.len();

/// The greatest numbers, odd and even, signed and not, in each set of places.
fn greatest_numbers() -> Group {
    let mut group = Group::new("greatest numbers in any places");
    for great in [u64::MAX, u64::MAX - 1, u64::MAX / 2, u64::MAX / 2 + 1] {
        for places in SETS_OF_PLACES {
            group.compare_stated(changed(SOUND, places, |_| great), REFUSED, REFUSED);
        }
    }
    group
}

/// Sound numbers raised by a power of two, which narrower arithmetic would take for sound, in
/// each set of places. 2^37 is the first power above 10^11.
fn raised_numbers() -> Group {
    let mut group = Group::new("numbers raised by 2^37 to 2^63 in any places");
    for power in 37..u64::BITS {
        for places in SETS_OF_PLACES {
            let raised = changed(SOUND, places, |n| n + (1 << power));
            group.compare_stated(raised, REFUSED, REFUSED);
        }
    }
    group
}

fn changed(call: Call, places: u32, change: impl Fn(u64) -> u64) -> Call {
    std::array::from_fn(|place| {
        if places >> place & 1 == 1 {
            change(call[place])
        } else {
            call[place]
        }
    })
}

/// Small settings: CE, D, M1 and M2.
const SWEPT: [[u64; 4]; 15] = [
    [20_000, 1_000, 900, 1_200],
    [2, 2, 1, 3],
    [2, 500, 1, 1_000],
    [6, 7, 3, 20],
    [10, 12, 2, 17],
    [14, 1_000, 1, 3_000],
    [100, 50, 1, 51],
    [998, 500, 499, 2_000],
    [1_000, 501, 1, 502],
    [1_000, 1_001, 1, 1_501],
    [1_000, 1_000, 1, 1_501],
    [1_000, 1_002, 1, 1_503],
    [4_096, 64, 63, 65],
    [65_538, 300, 97, 401],
    [500_000, 12, 5, 31],
];

/// Every price of the small settings, and one beyond each end, beside the scan; the CE-ths of a kWh
/// are too many for one.
fn sweeps() -> Group {
    let mut group = Group::new("every price of small settings, by scan");
    let swept = if few() { &SWEPT[..1] } else { &SWEPT };
    for &[ce, d, m1, m2] in swept {
        for p in ce / 2 - 1..=2 * ce + 1 {
            let demand = demand_by_scan(ce, d, m1, m2, p);
            let remainder = demand_remainder(ce, d, m1, m2, p);
            group.compare([ce, d, m1, m2, p], Answers { demand, remainder });
        }
    }
    group
}

/// Every input with settings up to 7 and prices beyond all that they admit, sound or not.
fn small_box() -> Group {
    let mut group = Group::new("every input with settings to 7, by scan");
    let sides = [8, 8, 8, 8, 18];
    for number in 0..sides.iter().product() {
        let call = digits(number, sides);
        let [ce, d, m1, m2, p] = call;
        let demand = demand_by_scan(ce, d, m1, m2, p);
        let remainder = demand_remainder_by_scan(ce, d, m1, m2, p);
        group.compare(call, Answers { demand, remainder });
    }
    group
}

/// The digits of `number`, one for each base, lowest first.
fn digits(mut number: u64, bases: Call) -> Call {
    bases.map(|base| {
        let digit = number % base;
        number /= base;
        digit
    })
}

fn generated(name: &'static str, generate: Generator) -> Group {
    let mut group = Group::new(name);
    let mut random = Random::new(2026);
    for _ in 0..inputs(GENERATED_INPUTS) {
        let call = generate(&mut random);
        group.compare(call, answers(call));
    }
    group
}

fn small(random: &mut Random) -> Call {
    sound(random, 40, 30)
}

fn medium(random: &mut Random) -> Call {
    sound(random, 30_000, 100_000)
}

fn whole_range(random: &mut Random) -> Call {
    sound(random, HIGHEST_CE, HIGHEST_M2)
}

/// Settings within the bounds with CE and M2 up to those given, and a price they admit.
fn sound(random: &mut Random, ce: u64, m2: u64) -> Call {
    let ce = 2 * random.of_any_size(1, ce / 2);
    let m2 = random.of_any_size(3, m2);
    // Both margins may lie close to D or far from it.
    let d = m2 - random.of_any_size(1, m2 - 2);
    let m1 = d - random.of_any_size(1, d - 1);
    [ce, d, m1, m2, admitted_price(random, ce)]
}

/// As often at the floor, CE or 2 × CE, or a few thousandths from them, as anywhere between.
fn admitted_price(random: &mut Random, ce: u64) -> u64 {
    let (floor, ceiling) = (ce / 2, 2 * ce);
    let near = random.one_of(&[floor, ce, ceiling]) + random.between(0, 6);
    let anywhere = random.between(floor, ceiling);
    let price = random.one_of(&[near.saturating_sub(3), anywhere]);
    price.clamp(floor, ceiling)
}

/// The greatest products: CE and M2 at their bounds or just inside, D and M1 at either end.
fn maximal(random: &mut Random) -> Call {
    let ce = HIGHEST_CE - 2 * random.between(0, 2);
    let m2 = HIGHEST_M2 - random.between(0, 2);
    let anywhere = random.between(4, m2 - 4);
    let d = random.one_of(&[2, 3, anywhere, m2 - 2, m2 - 1]);
    let anywhere = random.between(1, d - 1);
    let m1 = random.one_of(&[1, anywhere, d - 1]);
    [ce, d, m1, m2, admitted_price(random, ce)]
}

/// Margins that are multiples of CE / 2, where the paper's quotients are often whole, and
/// margins one off, where they are just above or below a whole number.
fn whole_quotients(random: &mut Random) -> Call {
    let half = random.of_any_size(2, HIGHEST_CE / 2);
    let mut width = || half * random.of_any_size(1, 150_000) - 1 + random.between(0, 2);
    let (below, above) = (width(), width());
    let m1 = random.of_any_size(1, HIGHEST_M2 - below - above);
    let (d, ce) = (m1 + below, 2 * half);
    [ce, d, m1, d + above, admitted_price(random, ce)]
}

/// A sound input moved to a bound, or up to two off it, in one to three places.
fn near_bounds(random: &mut Random) -> Call {
    let mut call = sound(random, HIGHEST_CE, HIGHEST_M2);
    for _ in 0..random.between(1, 3) {
        let [ce, d, m1, m2, _] = call;
        let (place, bound) = random.one_of(&[
            (0, 2),
            (0, HIGHEST_CE),
            (1, m1),
            (1, m2),
            (2, 0),
            (2, d),
            (3, d),
            (3, HIGHEST_M2),
            (4, ce / 2),
            (4, 2 * ce),
        ]);
        call[place] = (bound + random.between(0, 4)).saturating_sub(2);
    }
    call
}

/// Numbers of any size in all places, or a sound input with a number replaced, raised by a
/// power of two, or two numbers exchanged.
fn malformed(random: &mut Random) -> Call {
    let mut call = sound(random, HIGHEST_CE, HIGHEST_M2);
    let place = random.between(0, 4) as usize;
    match random.between(0, 4) {
        0 => call = call.map(|_| random.any()),
        1 => call = call.map(|_| random.of_any_size(0, u64::MAX)),
        2 => call[place] = random.of_any_size(0, u64::MAX),
        3 => call[place] += 1 << random.between(0, 63),
        _ => call.swap(place, random.between(0, 4) as usize),
    }
    call
}
