//! The family `iterate`: elements damaged and then read, payloads of every length, steps at cursors
//! that no iteration has, and states that no opening gave.

use super::{iterate_damaged, iterate_states, packed_groups, Script};
use crate::random::Random;

pub fn scripts(random: &mut Random) -> Vec<Script> {
    let mut groups = iterate_damaged::groups(random);
    groups.extend(iterate_states::groups(random));
    packed_groups(&[], groups)
}
