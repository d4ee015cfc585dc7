//! What was refused, as far as it is known.

use crate::ceiling::Ceiling;
use crate::counting;
use crate::horizon::Horizon;
use crate::map::Map;
use crate::rule::Rule;

#[derive(Default, Clone, Copy)]
pub struct Subject<'a> {
    pub map: Option<&'a Map>,
    pub horizon: Option<&'a Horizon>,
    pub rule: Rule<'a>,
    pub ceiling: Option<Ceiling<'a>>,
    pub plan: Option<&'a [u8]>,
    /// What a solver printed, in the form that the library reads.
    pub text: Option<&'a [u8]>,
    /// How many plans a full record did not count.
    pub uncounted: Option<usize>,
}

impl<'a> Subject<'a> {
    pub fn of(map: &'a Map, horizon: &'a Horizon, rule: Rule<'a>) -> Subject<'a> {
        Subject {
            map: Some(map),
            horizon: Some(horizon),
            rule,
            ..Subject::default()
        }
    }

    pub fn with_ceiling(self, ceiling: Option<Ceiling<'a>>) -> Subject<'a> {
        Subject { ceiling, ..self }
    }

    pub fn with_plan(self, plan: &'a [u8]) -> Subject<'a> {
        let plan = Some(plan);
        Subject { plan, ..self }
    }

    /// The variables of its formula, 0 where that is not known.
    pub fn variables(self) -> usize {
        let known = self.map.zip(self.horizon);
        known.map_or(0, |(map, horizon)| {
            counting::variables(map, horizon, self.ceiling)
        })
    }
}
