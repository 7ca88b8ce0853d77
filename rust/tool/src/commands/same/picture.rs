//! The answer as a picture: the run that tells the two apart as a timing diagram, the inputs, the old block and the new one, with the first difference framed.

use super::search::{Found, Step};
use super::words::{difference, turned_down, two_names, verdict, versions};
use super::{Pair, SIDES};
use crate::draw::timing::{Group, Timing};
use crate::files;
use crate::output::Out;
use crate::run::picture::{answered, given};
use crate::sets::Given;
use crate::trouble::Outcome;
use foldheron::Instant;

pub fn tell(pair: &Pair, found: &Found, out: &mut Out) -> Outcome<()> {
    let steps: &[Step] = match found {
        Found::Different(steps) => steps,
        Found::Refused(why) if why.number != 25 => return Err(turned_down(pair, *why)),
        _ => &[],
    };
    let timing = Timing {
        heading: verdict(pair, found),
        about: about(pair, found),
        instants: (1..=steps.len() as u64).collect(),
        groups: if steps.is_empty() { Vec::new() } else { groups(pair, steps) },
        mark: steps.last().map(|last| (steps.len() - 1, format!("instant {}: {}", steps.len(), difference(last, &pair.labels)))),
        notes: two_names(pair).into_iter().collect(),
    };
    out.text(&timing.file())
}

/// What the two are called, and what is said of their numbers.
fn about(pair: &Pair, found: &Found) -> Vec<String> {
    let paths = SIDES.iter().zip([&pair.old, &pair.new]).map(|(side, block)| format!("{}: {}", side, files::shown(&block.path)));
    std::iter::once(versions(pair, found)).chain(paths).collect()
}

fn groups(pair: &Pair, steps: &[Step]) -> Vec<Group> {
    let inputs: Vec<Given> = steps.iter().map(|step| Given::heard(step.inputs)).collect();
    let mut groups = vec![given(&pair.labels, &inputs)];
    for k in 0..SIDES.len() {
        let answers: Vec<Instant> = steps.iter().map(|step| step.answers[k]).collect();
        groups.push(answered(SIDES[k].to_string(), SIDES[k], &pair.labels, &answers, false));
    }
    for row in groups.iter_mut().flat_map(|group| &mut group.rows) {
        if let Some(two) = pair.renamed.iter().find(|two| pair.labels.signal(two.signal) == row.name) {
            row.name = format!("{} / {}", two.old, two.new);
        }
    }
    groups
}
