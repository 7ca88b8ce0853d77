//! The library's side of the race: its answer in the fields of the plain evaluator's.

use crate::plain::Answer;

pub fn instant(block: &[u8], state: &mut [u8], inputs: u64) -> Answer {
    match foldheron::instant(block, state, inputs) {
        foldheron::Instant::Answered(r) => Answer {
            present: r.present,
            rounds: r.rounds,
            code: r.code,
            active: u32::from(r.active),
            ..Answer::default()
        },
        foldheron::Instant::NotConstructive(d) => Answer {
            number: 13,
            present: d.present,
            absent: d.absent,
            undecided: u32::from(d.undecided),
            rounds: d.rounds,
            ..Answer::default()
        },
        foldheron::Instant::Clash(first, second) => Answer { number: 10, first, second, ..Answer::default() },
        foldheron::Instant::Refused(r) => Answer { number: r.number, place: r.place, ..Answer::default() },
    }
}
