//! Questions to the filter.

use super::{Question, listed};
use crate::filter::Filter;
use crate::line::Line;

struct Case {
    line: &'static str,
    filter: Filter,
    /// The ids that the port finds by document 01; the values behind them stay.
    ids: Vec<u32>,
}

pub fn questions() -> Vec<Box<dyn Question>> {
    let case = |line, interval: (u32, u32), offset, values: &[u32], ids: &[u32]| {
        let (lowest, highest) = interval;
        Box::new(Case {
            line,
            filter: Filter {
                lowest,
                highest,
                offset,
                values: values.to_vec(),
            },
            ids: ids.to_vec(),
        }) as Box<dyn Question>
    };
    let past_the_count = "filter, the slice past the count";
    let past_the_ids = "filter, an id past 2^32 - 1";
    let last = u32::MAX;
    vec![
        case(past_the_count, (6, 9), 0, &[5, 6, 7], &[1, 2]),
        case(past_the_count, (8, 9), 0, &[5, 6, 7], &[]),
        case(past_the_count, (9, 6), 0, &[5, 6, 7], &[]),
        case(
            past_the_ids,
            (0, 9),
            last - 1,
            &[5, 6, 7, 8],
            &[last - 1, last],
        ),
        case(past_the_ids, (7, 9), last - 1, &[5, 6, 7, 8], &[]),
        case(past_the_ids, (5, 5), last, &[5, 6], &[last]),
    ]
}

impl Question for Case {
    fn line(&self) -> &'static str {
        self.line
    }

    fn of(&self) -> String {
        format!("values {}", listed(&self.filter.values))
    }

    fn asked(&self) -> String {
        let Filter {
            lowest,
            highest,
            offset,
            ..
        } = self.filter;
        format!("values from {lowest} to {highest}, ids from {offset}")
    }

    fn rust(&self) -> String {
        let ids = self.filter.by_the_rust();
        format!("{}, cut to {} places", listed(&ids), ids.len())
    }

    fn port(&self) -> String {
        let rest = &self.filter.values[self.ids.len()..];
        format!("{}, then {} as before", listed(&self.ids), listed(rest))
    }

    fn case(&self) -> Option<Vec<Line>> {
        Some(vec![self.filter.line(&self.ids)])
    }
}
