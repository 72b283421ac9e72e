//! Keys and machines ("The hall line").

use super::refusals::{refuse_when, Refusal, KEY_TOO_HIGH};

/// Machines are 0 to 63.
pub const MACHINES: u32 = 64;
/// How many keys one machine has: 32 sensors of 1,024 readings.
pub const KEYS_PER_MACHINE: u32 = 32_768;
/// How many keys one sensor has.
pub const KEYS_PER_SENSOR: u32 = 1_024;
/// The last key of the hall line; the first is 0.
pub const HIGHEST_KEY: u32 = 2_097_151;

/// The first key of a machine.
pub fn first_key(machine: u32) -> u32 {
    machine * KEYS_PER_MACHINE
}

/// The last key of a machine.
pub fn last_key(machine: u32) -> u32 {
    first_key(machine) + KEYS_PER_MACHINE - 1
}

/// Whether a key is one of the machine's own.
pub fn is_key_of(machine: u32, key: u32) -> bool {
    first_key(machine) <= key && key <= last_key(machine)
}

/// Rule 4.
pub fn judge_key(key: u32) -> Result<(), Refusal> {
    refuse_when(key > HIGHEST_KEY, KEY_TOO_HIGH)
}
