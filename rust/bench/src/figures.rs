//! Times that were measured: lines of text, so that a process can hand them on and a file can keep them.

use std::collections::BTreeMap;
use std::time::Duration;

/// The names of the contestants.
pub const LIBRARY: &str = "library";
pub const PLAIN: &str = "plain Rust";
pub const ISAL: &str = "ISA-L";
pub const COPY: &str = "copy";

/// What a row is of: the section, and the numbers and words that stand at its head.
type Key = (String, String);

/// The rows, in the order in which they came.
#[derive(Default)]
pub struct Figures {
    order: Vec<Key>,
    rows: BTreeMap<Key, Row>,
}

/// One row.
#[derive(Clone)]
pub struct Row {
    /// Bytes that the work goes through, or the number of calls.
    amount: f64,
    /// Nanoseconds of each contestant.
    times: BTreeMap<String, f64>,
}

/// Prints one row for the process that asked for it.
pub fn hand_on<const N: usize>(
    section: &str,
    head: &str,
    amount: u64,
    names: [&str; N],
    times: [Option<Duration>; N],
) {
    let mut line = format!("{section}\t{head}\t{amount}");
    for (name, time) in names.iter().zip(times) {
        if let Some(time) = time {
            line += &format!("\t{name}={}", time.as_nanos());
        }
    }
    println!("{line}");
}

impl Row {
    /// Nanoseconds for all of the work, less the floor of its calls where that was measured.
    fn nanoseconds(&self, name: &str) -> Option<f64> {
        let floor = self.times.get(&floor_of(name)).unwrap_or(&0.0);
        self.times.get(name).map(|time| time - floor)
    }

    /// Of two times of one contestant the shorter one counts, and with it the floor that was measured beside it.
    fn take_best(&mut self, other: &Row) {
        let better = |name: &String| match self.times.get(name) {
            Some(known) => other.times[name] < *known,
            None => true,
        };
        let contestant = |name: &&String| !name.ends_with(FLOOR) && better(name);
        let names: Vec<&String> = other.times.keys().filter(contestant).collect();
        for name in names {
            for name in [name.clone(), floor_of(name)] {
                if let Some(&time) = other.times.get(&name) {
                    self.times.insert(name, time);
                }
            }
        }
    }

    /// Nanoseconds for one call, or for one byte.
    pub fn for_each(&self, name: &str) -> Option<f64> {
        self.nanoseconds(name).map(|time| time / self.amount)
    }

    /// The library's time as a share of another's.
    pub fn ratio(&self, to: &str) -> Option<f64> {
        Some(self.nanoseconds(LIBRARY)? / self.nanoseconds(to)?)
    }
}

/// The contestant that does only what every call of another one begins with.
pub fn floor_of(name: &str) -> String {
    name.to_string() + FLOOR
}

const FLOOR: &str = ", floor";

impl Figures {
    pub fn of(text: &str) -> Figures {
        let mut figures = Figures::default();
        for line in text.lines() {
            let words: Vec<&str> = line.split('\t').collect();
            let time = |word: &&str| {
                let (name, time) = word.split_once('=').expect("a name and a time");
                (name.to_string(), time.parse().expect("nanoseconds"))
            };
            let row = Row {
                amount: words[2].parse().expect("an amount"),
                times: words[3..].iter().map(time).collect(),
            };
            figures.put((words[0].to_string(), words[1].to_string()), row);
        }
        figures
    }

    pub fn read(path: &str) -> Figures {
        match std::fs::read_to_string(path) {
            Ok(text) => Figures::of(&text),
            Err(error) => panic!("{path}: {error}"),
        }
    }

    pub fn write(&self, path: &str) {
        let mut text = String::new();
        for key in &self.order {
            let row = &self.rows[key];
            text += &format!("{}\t{}\t{}", key.0, key.1, row.amount);
            for (name, time) in &row.times {
                text += &format!("\t{name}={time}");
            }
            text.push('\n');
        }
        std::fs::write(path, text).expect("written");
    }

    /// Takes rows over; of two rows with one head the best counts.
    pub fn take_best(&mut self, other: Figures) {
        for key in other.order {
            let row = other.rows[&key].clone();
            self.put(key, row);
        }
    }

    fn put(&mut self, key: Key, row: Row) {
        match self.rows.get_mut(&key) {
            Some(known) => known.take_best(&row),
            None => {
                self.order.push(key.clone());
                self.rows.insert(key, row);
            }
        }
    }

    /// The heads of a section's rows, in order.
    pub fn heads(&self, section: &str) -> Vec<&str> {
        let of_section = self.order.iter().filter(|key| key.0 == section);
        of_section.map(|key| key.1.as_str()).collect()
    }

    pub fn row(&self, section: &str, head: &str) -> Option<&Row> {
        self.rows.get(&(section.to_string(), head.to_string()))
    }
}
