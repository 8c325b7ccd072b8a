//! How measured figures are shown, and the library's own among them.

use super::time::{time, Effort, Timing};
use crate::library::exports;

/// A cell for a timing that may be missing.
pub fn cell(timing: Option<Timing>) -> String {
    timing.map_or_else(|| "-".to_string(), |timing| timing.to_string())
}

pub fn times_as(ratio: Option<f64>) -> String {
    ratio.map_or_else(|| "-".to_string(), |ratio| format!("{ratio:.1}"))
}

pub fn ratio(one: Option<f64>, other: Option<f64>) -> String {
    times_as(one.zip(other).map(|(one, other)| one / other))
}

/// Times the call by the library, where it exports it.
pub fn by_library<T>(effort: Effort, call: &str, made: impl FnMut() -> T) -> Option<Timing> {
    exports(call).then(|| time(effort, made))
}
