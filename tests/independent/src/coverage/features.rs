//! How many of the things looked at show each of several features.

/// A feature's name, and the test of it.
pub type Feature<T> = (&'static str, fn(&T) -> bool);

/// A title, the calls that are looked at under it, and the features counted among them.
pub type Kind<T> = (&'static str, fn(&T) -> bool, &'static [Feature<T>]);

/// Things of a type counted by their features.
pub struct Features<T: 'static> {
    features: &'static [Feature<T>],
    showing: Vec<u64>,
}

impl<T> Features<T> {
    pub fn new(features: &'static [Feature<T>]) -> Features<T> {
        Features {
            features,
            showing: vec![0; features.len()],
        }
    }

    pub fn count(&mut self, thing: &T) {
        for (count, (_, shows)) in self.showing.iter_mut().zip(self.features) {
            *count += u64::from(shows(thing));
        }
    }

    /// With the things counted elsewhere.
    pub fn join(&mut self, other: &Features<T>) {
        for (count, more) in self.showing.iter_mut().zip(&other.showing) {
            *count += more;
        }
    }

    /// How many show each.
    pub fn counts(&self) -> impl Iterator<Item = (&'static str, u64)> + '_ {
        let names = self.features.iter().map(|(name, _)| *name);
        names.zip(self.showing.iter().copied())
    }

    /// Whether each feature is shown by so many; else it says which is too rare.
    pub fn hold_enough(&self, fewest: u64) -> bool {
        let rare: Vec<_> = self.counts().filter(|(_, count)| *count < fewest).collect();
        for (name, count) in &rare {
            println!("too rare: {name} {count}, fewer than {fewest}");
        }
        rare.is_empty()
    }

    /// One line behind the title, if any shows the first feature.
    pub fn print(&self, title: &str) {
        if self.showing.first().is_some_and(|&first| first > 0) {
            println!("  {title}: {}", self.listed());
        }
    }

    pub fn listed(&self) -> String {
        let counts = self.counts().map(|(name, count)| format!("{name} {count}"));
        counts.collect::<Vec<_>>().join(", ")
    }
}
