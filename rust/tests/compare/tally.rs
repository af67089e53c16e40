//! How often each call gave each number: a comparison is worth only what it has reached.

use crate::call::Call;
use std::collections::BTreeMap;
use std::io::Write;

#[derive(Default)]
pub struct Tally(BTreeMap<(Call, u64), u64>);

impl Tally {
    pub fn count(&mut self, call: Call, number: u64) {
        *self.0.entry((call, number)).or_default() += 1;
    }

    /// Each of these numbers was given by the call, and no other.
    pub fn expect(&self, call: Call, numbers: &[u64]) {
        let given = self.0.keys().filter(|(of, _)| *of == call);
        let given: Vec<u64> = given.map(|(_, number)| *number).collect();
        assert_eq!(given, numbers, "the numbers that {call:?} gave");
    }

    /// Each call gave each number that concerns it.
    pub fn expect_all(&self) {
        self.expect(Call::WriteBack, &[0, 10, 13]);
        for call in [Call::SheetLength, Call::ImageSize, Call::UnitSize] {
            self.expect(call, &[0, 10]);
        }
        for call in [Call::Stripes, Call::Addresses, Call::Offsets] {
            self.expect(call, &[0, 10]);
        }
        for call in [Call::Place, Call::LookUp, Call::Run] {
            self.expect(call, &[0, 10, 12, 13]);
        }
        self.expect(Call::Blank, &[0, 10, 11, 14]);
        for call in [Call::Write, Call::WriteStripe, Call::Read] {
            self.expect(call, &[0, 10, 11, 12, 13]);
        }
        self.expect(Call::Lose, &[0, 10, 12, 14]);
        self.expect(Call::Rebuild, &[0, 10, 11, 13, 15]);
        self.expect(Call::Scrub, &[0, 10, 11, 13, 14]);
        self.expect(Call::ShowPlace, &[0, 10, 11, 12, 14]);
        self.expect(Call::ShowAddress, &[0, 10, 11, 12, 13]);
    }

    /// All calls, and those refused.
    pub fn totals(&self) -> (u64, u64) {
        let refused = self.0.iter().filter(|((_, number), _)| *number != 0);
        (self.0.values().sum(), refused.map(|(_, times)| times).sum())
    }

    /// Prints the totals, past the capture of the test harness.
    pub fn print(&self, test: &str) {
        let (all, refused) = self.totals();
        let line = format!("{test}: {all} calls compared, {refused} of them refused\n");
        std::io::stderr().write_all(line.as_bytes()).ok();
    }
}
