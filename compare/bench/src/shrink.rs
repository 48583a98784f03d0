//! Makes an input on which a folder differs small: drops its records, many and then one by one, as long as it differs.
use crate::alike::records;
use crate::records::{is_property, kind};
use std::ops::Range;

/// Inputs tried at most.
const MOST: usize = 20_000;

type Records = Vec<Vec<u8>>;

/// The smallest input found on which `differs` holds, from one on which it does.
pub fn smallest(input: &[u8], mut differs: impl FnMut(&[u8]) -> bool) -> Vec<u8> {
    let mut kept: Records = records(input).map(<[u8]>::to_vec).collect();
    let mut left = MOST;
    let mut still_differs = |records: &Records| {
        left = left.saturating_sub(1);
        left > 0 && differs(&records.concat())
    };
    let mut run = kept.len();
    while run > 0 {
        let before = kept.len();
        kept = without_runs(kept, run, &mut still_differs);
        // Dropping one record can let another go, so runs of one are tried until none goes.
        if run > 1 || kept.len() == before {
            run /= 2;
        }
    }
    kept.concat()
}

/// Drops each run of so many records that can go.
fn without_runs(
    mut kept: Records,
    run: usize,
    still_differs: &mut impl FnMut(&Records) -> bool,
) -> Records {
    let mut end = kept.len();
    while end > 0 {
        let dropped = end.saturating_sub(run)..end;
        let candidates = [renumbered(&kept, &dropped), as_they_are(&kept, &dropped)];
        if let Some(fewer) = candidates.into_iter().find(&mut *still_differs) {
            kept = fewer;
        }
        end = dropped.start.min(kept.len());
    }
    kept
}

fn as_they_are(records: &Records, dropped: &Range<usize>) -> Records {
    [&records[..dropped.start], &records[dropped.end..]].concat()
}

/// The other records; where nodes are dropped, what names them goes too, and what names later ones follows them.
fn renumbered(records: &Records, dropped: &Range<usize>) -> Records {
    let mut numbers = Vec::new();
    let mut next = 0;
    for (at, record) in records.iter().enumerate() {
        if record[0] == kind::NODE {
            let kept = !dropped.contains(&at);
            numbers.push(kept.then_some(next));
            next += u16::from(kept);
        }
    }
    let others = as_they_are(records, dropped);
    let others = others.into_iter();
    others
        .filter_map(|record| with_numbers(record, &numbers))
        .collect()
}

/// A record with its nodes' new numbers; `None` if one is dropped.
fn with_numbers(mut record: Vec<u8>, numbers: &[Option<u16>]) -> Option<Vec<u8>> {
    let fields: &[usize] = match record[0] {
        kind::WIRE => &[1, 4],
        kind if is_property(kind) => &[1],
        _ => &[],
    };
    for &at in fields {
        let Some(field) = record.get_mut(at..at + 2) else {
            break;
        };
        let number = u16::from_le_bytes([field[0], field[1]]);
        if let Some(&number) = numbers.get(usize::from(number)) {
            field.copy_from_slice(&number?.to_le_bytes());
        }
    }
    Some(record)
}
