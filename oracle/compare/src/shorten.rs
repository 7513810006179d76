//! A script on which two guides differ, cut down.
use crate::compared::Difference;
use crate::prepared::check;
use crate::script::Script;

/// Calls performed at most.
const CALLS: usize = 1_000_000;

/// Without the calls behind the difference, and without those in front of it that it does not need.
pub fn shortened(script: &Script, differs: impl Fn(&Script) -> Option<Difference>) -> Script {
    let mut script = script.clone();
    let (mut size, mut performed) = (script.calls.len(), 0);
    while size > 0 {
        let mut at = 0;
        while at < script.calls.len() && performed < CALLS {
            let mut fewer = script.clone();
            fewer.calls.drain(at..(at + size).min(script.calls.len()));
            performed += fewer.calls.len();
            let may_stand = check(&fewer).is_ok();
            match may_stand.then(|| differs(&fewer)).flatten() {
                Some(difference) => {
                    fewer.calls.truncate(difference.number - 1);
                    script = fewer;
                }
                None => at += size,
            }
        }
        size /= 2;
    }
    script
}
