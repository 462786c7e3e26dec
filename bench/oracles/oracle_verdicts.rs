//! The verdict on the rows of a certificate, for the oracle: of the reasons against rows, in their order, the first
//! that holds against some row, each tried by its definition.

use crate::oracle_bounds::{Definitions, Gap, Miss, Ticks};
use crate::Number;
use std::cmp::Reverse;

/// A row as it was read: any numbers.
pub struct Row {
    pub gst: Ticks,
    pub delta: Ticks,
    pub phi: Ticks,
    pub miss: Option<Miss>,
    pub gap: Option<Gap>,
}

pub struct Verdicts<'a> {
    pub definitions: Definitions<'a>,
    pub rows: &'a [Row],
}

impl Verdicts<'_> {
    /// The first reason against the rows, by the list of reasons and then by row, as it is printed.
    pub fn first_reason(&self) -> Option<String> {
        if self.rows.is_empty() && self.last_tick() > 0 {
            return Some("NoRows".into());
        }
        if self.rows.first().is_some_and(|it| it.gst != 1) {
            return Some("FirstNotOne".into());
        }
        let numbers = || 1..=self.rows.len();
        let found = |name: &str, stands: &dyn Fn(usize) -> bool| {
            let row = numbers().find(|row| stands(*row))?;
            Some(format!("{name} {row}"))
        };
        found("NotRising", &|k| {
            self.against_before(k, |a, b| b.gst <= a.gst)
        })
        .or_else(|| found("BeyondEnd", &|k| self.row(k).gst > self.last_tick()))
        .or_else(|| {
            let rises = |a: &Row, b: &Row| b.delta > a.delta || b.phi > a.phi;
            found("NotNonIncreasing", &|k| self.against_before(k, rises))
        })
        .or_else(|| {
            let is_same = |a: &Row, b: &Row| b.delta == a.delta && b.phi == a.phi;
            found("SameAsBefore", &|k| self.against_before(k, is_same))
        })
        .or_else(|| found("BadMiss", &|k| !self.shows_delta(k)))
        .or_else(|| found("BadGap", &|k| !self.shows_phi(k)))
        .or_else(|| numbers().find_map(|k| self.delta_fails(k)))
        .or_else(|| numbers().find_map(|k| self.phi_fails(k)))
    }

    fn last_tick(&self) -> Ticks {
        self.definitions.last_tick()
    }

    /// The row of a number from 1.
    fn row(&self, number: usize) -> &Row {
        &self.rows[number - 1]
    }

    /// Whether a row has one before it, and something is true of the two.
    fn against_before(&self, number: usize, is_bad: impl Fn(&Row, &Row) -> bool) -> bool {
        number > 1 && is_bad(self.row(number - 1), self.row(number))
    }

    /// The last tick of a row's stretch.
    fn end_of_stretch(&self, number: usize) -> Ticks {
        self.rows
            .get(number)
            .map_or(self.last_tick(), |next| next.gst - 1)
    }

    /// No miss for 1; for a greater bound a true one, shorter by one, that is sent at the stretch's end or later.
    fn shows_delta(&self, number: usize) -> bool {
        let row = self.row(number);
        match row.miss {
            None => row.delta == 1,
            Some(miss) => {
                row.delta > 1
                    && self.definitions.is_miss(miss)
                    && self.definitions.length_of_miss(miss) == row.delta - 1
                    && self.definitions.tick(miss.sent) >= self.end_of_stretch(number)
            }
        }
    }

    fn shows_phi(&self, number: usize) -> bool {
        let row = self.row(number);
        match row.gap {
            None => row.phi == 1,
            Some(gap) => {
                row.phi > 1
                    && self.definitions.is_gap(gap)
                    && gap.to - gap.from + 1 == row.phi - 1
                    && gap.from >= self.end_of_stretch(number)
            }
        }
    }

    /// Reported with the longest miss from the row's stabilization time on, and then the greatest `sent`.
    fn delta_fails(&self, number: usize) -> Option<String> {
        let (row, it) = (self.row(number), &self.definitions);
        if it.delta_holds(row.delta, row.gst) {
            return None;
        }
        let key = |miss: &Miss| (it.length_of_miss(*miss), it.tick(miss.sent), miss.sent);
        let Miss { sent, missed } = it
            .misses(row.gst)
            .max_by_key(key)
            .expect("a miss that refutes");
        Some(format!("DeltaFails {number} {sent} {missed}"))
    }

    /// Reported with the longest gap from the row's stabilization time on, then the greatest `from`, then the least
    /// processor.
    fn phi_fails(&self, number: usize) -> Option<String> {
        let (row, it) = (self.row(number), &self.definitions);
        if it.phi_holds(row.phi, row.gst) {
            return None;
        }
        let key = |gap: &Gap| (gap.to - gap.from, gap.from, Reverse(gap.processor));
        let gap = it
            .gaps(row.gst)
            .max_by_key(key)
            .expect("a gap that refutes");
        let Gap {
            processor,
            from,
            to,
        } = gap;
        Some(format!("PhiFails {number} {processor} {from} {to}"))
    }
}

impl Row {
    /// The row of eight fields, of which those of a witness may be empty; else what is wrong with them.
    pub fn from_fields(
        fields: &[Vec<u8>],
        number: impl Fn(&[u8]) -> Option<u64>,
    ) -> Result<Row, &'static str> {
        let [gst, delta, phi, witnesses @ ..] = fields else {
            return Err("bad fields");
        };
        if witnesses.len() != 5 {
            return Err("bad fields");
        }
        let whole = |field: &Vec<u8>| number(field).map(Ticks::from);
        let (Some(gst), Some(delta), Some(phi)) = (whole(gst), whole(delta), whole(phi)) else {
            return Err("bad number");
        };
        if witnesses
            .iter()
            .any(|it| !it.is_empty() && number(it).is_none())
        {
            return Err("bad number");
        }
        let (miss, gap) = witnesses.split_at(2);
        let is_half =
            |of: &[Vec<u8>]| of.iter().any(Vec::is_empty) && !of.iter().all(Vec::is_empty);
        if is_half(miss) || is_half(gap) {
            return Err("half a witness");
        }
        let numbers = |of: &[Vec<u8>]| {
            of.iter()
                .filter_map(|it| number(it))
                .collect::<Vec<Number>>()
        };
        let miss = match numbers(miss)[..] {
            [sent, missed] => Some(Miss { sent, missed }),
            _ => None,
        };
        let gap = match numbers(gap)[..] {
            [processor, from, to] => Some(Gap {
                processor,
                from: from.into(),
                to: to.into(),
            }),
            _ => None,
        };
        Ok(Row {
            gst,
            delta,
            phi,
            miss,
            gap,
        })
    }
}
