//! The seed and the length of a run, both from the environment.

use crate::Random;
use std::io::Write;
use std::time::{SystemTime, UNIX_EPOCH};

/// The generator for the test of this name, and its seed printed.
///
/// SHQEMTULI_SEED is a number, or `clock` for another seed each time. Without it the seed is 1, so that a gate gives the
/// same verdict each time.
pub fn seeded(test: &str) -> Random {
    let seed = match std::env::var("SHQEMTULI_SEED").as_deref() {
        Ok("clock") => since_1970(),
        Ok(number) => number
            .parse()
            .expect("SHQEMTULI_SEED is a number or 'clock'"),
        Err(_) => 1,
    };
    // Written past the capture of the test harness: the seed is wanted where the test passes, too.
    let line = format!(
        "{test}: SHQEMTULI_SEED={seed} SHQEMTULI_ROUNDS={}\n",
        rounds()
    );
    std::io::stderr().write_all(line.as_bytes()).ok();
    let name = test
        .bytes()
        .fold(0u64, |sum, byte| sum.wrapping_mul(31) + u64::from(byte));
    Random::new(seed ^ name.rotate_left(32))
}

/// How many rounds each test does: SHQEMTULI_ROUNDS, or 5, or 1 where the library, which is x86-64 code, runs under an
/// emulator.
pub fn rounds() -> u64 {
    let native = cfg!(target_arch = "x86_64") || std::env::var_os("SHQEMTULI_LIB").is_some();
    match std::env::var("SHQEMTULI_ROUNDS") {
        Ok(number) => number.parse().expect("SHQEMTULI_ROUNDS is a number"),
        Err(_) if native => 5,
        Err(_) => 1,
    }
}

fn since_1970() -> u64 {
    let now = SystemTime::now().duration_since(UNIX_EPOCH);
    now.expect("the clock stands after 1970").as_nanos() as u64
}
