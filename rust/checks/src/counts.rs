//! What cases have met, by name, and what they ought to.

use std::collections::BTreeMap;
use std::fmt;

/// How often each thing was met; every thing that ought to be met has an entry. They print as a line
/// for each, with totals below.
pub struct Counts {
    met: BTreeMap<String, u64>,
    /// Over all cases; nothing is required of these.
    sums: BTreeMap<&'static str, u64>,
    greatest: BTreeMap<&'static str, u64>,
    pub cases: u64,
    /// What the cases are called.
    pub noun: &'static str,
}

impl Counts {
    /// Of things that these cases ought to meet, and did not so far.
    pub fn of(noun: &'static str, names: Vec<String>) -> Self {
        Counts {
            met: names.into_iter().map(|name| (name, 0)).collect(),
            sums: BTreeMap::new(),
            greatest: BTreeMap::new(),
            cases: 0,
            noun,
        }
    }

    pub fn meet(&mut self, name: &str) {
        self.meet_times(name, 1);
    }

    /// What need not be met has an entry once it is.
    pub fn meet_times(&mut self, name: &str, times: u64) {
        match self.met.get_mut(name) {
            Some(count) => *count += times,
            None if times == 0 => {}
            None => {
                self.met.insert(name.to_string(), times);
            }
        }
    }

    /// Where everything that can be met ought to be: anything else is a mistake.
    pub fn meet_listed(&mut self, name: &str) {
        match self.met.get_mut(name) {
            Some(count) => *count += 1,
            None => panic!("met, and not listed: {}", name),
        }
    }

    /// Adds to a sum over all cases.
    pub fn sum(&mut self, name: &'static str, number: u64) {
        *self.sums.entry(name).or_insert(0) += number;
    }

    /// Keeps the greatest number of all cases.
    pub fn greatest(&mut self, name: &'static str, number: u64) {
        let greatest = self.greatest.entry(name).or_insert(0);
        *greatest = number.max(*greatest);
    }

    pub fn add(&mut self, other: &Counts) {
        for (name, count) in &other.met {
            self.meet_times(name, *count);
        }
        for (name, number) in &other.sums {
            self.sum(name, *number);
        }
        for (name, number) in &other.greatest {
            self.greatest(name, *number);
        }
        self.cases += other.cases;
    }

    /// What ought to be met and was not.
    pub fn missing(&self) -> Vec<&str> {
        let unmet = self.met.iter().filter(|(_, count)| **count == 0);
        unmet.map(|(name, _)| name.as_str()).collect()
    }
}

impl fmt::Display for Counts {
    fn fmt(&self, f: &mut fmt::Formatter) -> fmt::Result {
        let met = self.met.iter().map(|(name, count)| (name.as_str(), count));
        let totals = self.sums.iter().chain(&self.greatest);
        let totals = totals.map(|(name, number)| (*name, number));
        for (name, number) in met.chain(totals) {
            writeln!(f, "{:>12}  {}", number, name)?;
        }
        write!(f, "{:>12}  {}", self.cases, self.noun)
    }
}

#[cfg(test)]
mod tests {
    use super::*;

    fn counts() -> Counts {
        Counts::of("jobs", ["one", "two", "three"].map(String::from).to_vec())
    }

    #[test]
    fn added_up() {
        let [mut mine, mut theirs] = [counts(), counts()];
        assert_eq!(mine.missing(), ["one", "three", "two"]);
        mine.meet_listed("one");
        mine.sum("picks", 3);
        mine.greatest("picks in the longest order", 3);
        mine.cases += 1;
        theirs.meet_times("one", 2);
        theirs.meet("two");
        // Nothing requires these.
        theirs.meet("four");
        theirs.meet_times("five", 0);
        theirs.sum("picks", 2);
        theirs.greatest("picks in the longest order", 2);
        theirs.cases += 1;
        mine.add(&theirs);
        assert_eq!(mine.missing(), ["three"]);
        let numbers = mine.to_string();
        let numbers = numbers.lines().map(|line| line.trim_start());
        assert_eq!(
            numbers.collect::<Vec<_>>(),
            [
                "1  four",
                "3  one",
                "0  three",
                "1  two",
                "5  picks",
                "3  picks in the longest order",
                "2  jobs"
            ]
        );
    }

    #[test]
    #[should_panic(expected = "met, and not listed: four")]
    fn a_name_that_is_not_listed() {
        counts().meet_listed("four");
    }
}
