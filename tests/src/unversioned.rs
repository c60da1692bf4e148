//! Versions told by the calls of a gate on networks without one.

use crate::gate::{Answer, Call, Gate, Lent};

/// A gate that is never shown a version: 4 reads as none, and in version 1 a modify is given as an
/// add. That leaves the same records, whether or not the rule is there.
pub struct Unversioned<'a>(pub &'a dyn Gate);

/// Takes version 1 or 4 out of a store, and tells it. Other bytes stay, to be refused.
fn take_version(store: &mut [u8]) -> Option<u8> {
    let version = store.get_mut(4)?;
    matches!(version, 1 | 4).then(|| std::mem::take(version))
}

/// The call that does in version 0 what this one does in a version.
fn in_version_0(version: Option<u8>, call: &Call) -> Call {
    let mut call = call.clone();
    if let (Some(1), Call::Command(given)) = (version, &mut call) {
        if let Some(kind @ 7) = given.first_mut() {
            *kind = 6;
        }
    }
    call
}

impl Gate for Unversioned<'_> {
    fn answer(&self, call: &Call, lent: &mut Lent) -> Answer {
        let version = take_version(&mut lent.store);
        let answer = self.0.answer(&in_version_0(version, call), lent);
        if let Some(version) = version {
            lent.store[4] = version;
        }
        answer
    }
}
