//! A planner under comparison, on rows or on lists.

use crate::caller::Caller;
use crate::entries::Planner;
use crate::reasons::Reasons;

/// What the calls are made with, and the totals of what they have compared: those of rows or those of lists.
pub struct Comparison<'a, P: Planner, T> {
    pub(crate) caller: Caller<'a, P>,
    pub(crate) reasons: Reasons<'a, P>,
    pub totals: T,
}

impl<'a, P: Planner, T: Default> Comparison<'a, P, T> {
    pub fn new(planner: &'a P, seed: u64) -> Comparison<'a, P, T> {
        let (caller, reasons) = (Caller::new(planner, seed), Reasons::new(planner, seed));
        Comparison { caller, reasons, totals: T::default() }
    }
}
