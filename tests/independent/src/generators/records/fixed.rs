//! Fixed records: whole auctions, each check at its edges and in its order, settlings of small
//! books. Each is a short auction, written call by call.

mod auctions;
mod cancellations;
mod choices;
mod curves;
mod developers;
mod limits;
mod lodgings;
mod offers;
mod openings;
mod participation;
mod phases;
mod prices;
mod registrations;
mod settings;

use crate::model::auction::{EXISTING, NEW};
use crate::model::replay::{write_call, Call};
use std::ops::RangeInclusive;

/// All of them.
pub fn records() -> Vec<Vec<u8>> {
    let groups = groups().into_iter();
    groups.flat_map(|(_, records)| records).collect()
}

/// Records by what they are about.
pub fn groups() -> [(&'static str, Vec<Vec<u8>>); 14] {
    let records = |scripts: Vec<Script>| scripts.into_iter().map(|script| script.record);
    GROUPS.map(|(name, scripts)| (name, records(scripts()).collect()))
}

type Group = (&'static str, fn() -> Vec<Script>);

const GROUPS: [Group; 14] = [
    ("whole auctions", auctions::scripts),
    ("phases", phases::scripts),
    ("settings", settings::scripts),
    ("registrations", registrations::scripts),
    ("openings", openings::scripts),
    ("offers", offers::scripts),
    ("limits", limits::scripts),
    ("closing prices", prices::scripts),
    ("choices", choices::scripts),
    ("developers", developers::scripts),
    ("lodgings", lodgings::scripts),
    ("cancellations", cancellations::scripts),
    ("supply curves", curves::scripts),
    ("participation", participation::scripts),
];

/// A step of an offer: price and new level.
type Step = (u32, u32);

/// An offer or a lodged list: developer and steps.
type Offer<'a> = (u8, &'a [Step]);

/// A registration with study value and start day 0: project, developer, kind and levels.
type Plant<'a> = (u8, u8, u8, &'a [u32]);

/// A record as it grows. Small quantities are in thousands of kWh: an excess of a few kWh would end
/// the auction in its first round (document 02, 1).
struct Script {
    record: Vec<u8>,
}

/// In kWh; numbers at the far bounds stay.
fn kwh(quantity: u64) -> u64 {
    if quantity <= 100_000 {
        quantity * 1_000
    } else {
        quantity
    }
}

fn levels_in_kwh(levels: &[u32]) -> Vec<u32> {
    let level = |&level: &u32| kwh(level.into()).try_into().expect("fits as it did");
    levels.iter().map(level).collect()
}

impl Script {
    fn fresh() -> Script {
        Script { record: Vec::new() }
    }

    fn call(mut self, call: &Call) -> Script {
        self.record.extend(write_call(call));
        self.record.push(b'\n');
        self
    }

    /// CE, D, M1, M2 and A.
    fn set_up(self, [ce, d, m1, m2, a]: [u64; 5]) -> Script {
        let [d, m1, m2] = [d, m1, m2].map(kwh);
        self.call(&Call::SetUp { ce, d, m1, m2, a })
    }

    fn register(self, plants: &[Plant]) -> Script {
        let register = |script: Script, &plant: &Plant| script.register_with((0, 0), plant);
        plants.iter().fold(self, register)
    }

    /// With this study value and start day.
    fn register_with(self, study_and_day: (u32, u32), plant: Plant) -> Script {
        self.registration(None, study_and_day, plant)
    }

    /// Plants of this agent, by frame 08.
    fn register_for(self, agent: u8, plants: &[Plant]) -> Script {
        let register =
            |script: Script, &plant: &Plant| script.registration(Some(agent), (0, 0), plant);
        plants.iter().fold(self, register)
    }

    fn registration(
        self,
        agent: Option<u8>,
        (study, day): (u32, u32),
        (project, developer, kind, levels): Plant,
    ) -> Script {
        self.call(&Call::Register {
            project,
            developer,
            kind,
            agent,
            study,
            day,
            levels: levels_in_kwh(levels),
        })
    }

    fn existing(self, project: u8, developer: u8, level: u32) -> Script {
        self.register(&[(project, developer, EXISTING, &[level])])
    }

    /// New plants with these levels, each with the number of its project.
    fn plants(self, numbers: RangeInclusive<u8>, levels: &[u32]) -> Script {
        numbers.fold(self, |script, n| script.register(&[(n, n, NEW, levels)]))
    }

    fn open(self, c: u32) -> Script {
        self.call(&Call::Open { c })
    }

    fn opens(self, prices: &[u32]) -> Script {
        prices.iter().fold(self, |script, &c| script.open(c))
    }

    fn offer(self, offers: &[Offer]) -> Script {
        offers.iter().fold(self, |script, &(developer, steps)| {
            let (prices, levels): (Vec<u32>, Vec<u32>) = steps.iter().copied().unzip();
            script.call(&Call::Offer {
                developer,
                prices,
                levels: levels_in_kwh(&levels),
            })
        })
    }

    fn cancel(self, developers: &[u8]) -> Script {
        let cancel = |script: Script, &developer: &u8| script.call(&Call::Cancel { developer });
        developers.iter().fold(self, cancel)
    }

    fn lodge(self, lists: &[Offer]) -> Script {
        lists.iter().fold(self, |script, &(developer, steps)| {
            let (prices, levels): (Vec<u32>, Vec<u32>) = steps.iter().copied().unzip();
            script.call(&Call::Lodge {
                developer,
                prices,
                levels: levels_in_kwh(&levels),
            })
        })
    }

    fn close(self) -> Script {
        self.call(&Call::Close)
    }

    /// A round down to C with these offers.
    fn round(self, c: u32, offers: &[Offer]) -> Script {
        self.open(c).offer(offers).close()
    }

    fn settle(self, limits: &[u32]) -> Script {
        let settle = |script: Script, &limit: &u32| script.call(&Call::Settle { limit });
        limits.iter().fold(self, settle)
    }

    /// With the calls that another function writes.
    fn then(self, calls: impl FnOnce(Script) -> Script) -> Script {
        calls(self)
    }
}

/// The sample record's CE, D, M1, M2 and A; its floor is 10,000.
const SETTINGS: [u64; 5] = [20_000, 1_000, 900, 1_200, 40_000];

/// The sample record up to its set-up.
fn set_up() -> Script {
    Script::fresh().set_up(SETTINGS)
}

/// The sample record up to its last registration.
fn registered() -> Script {
    set_up()
        .existing(1, 1, 820)
        .register_with((400, 10), (2, 2, NEW, &[100, 200]))
        .register_with((500, 20), (2, 3, NEW, &[200]))
        .register(&[(3, 4, NEW, &[150])])
}

/// The sample record up to its opening.
fn opened() -> Script {
    registered().open(25_000)
}

/// The sample record up to its closing.
fn closed() -> Script {
    opened()
        .offer(&[
            (2, &[(26_000, 100)]),
            (3, &[(26_000, 0)]),
            (4, &[(26_000, 0)]),
        ])
        .close()
}

/// The same plants after another first round, down to 30,000, in which nobody withdraws.
fn between_rounds() -> Script {
    registered().round(30_000, &[(2, &[]), (3, &[]), (4, &[])])
}
