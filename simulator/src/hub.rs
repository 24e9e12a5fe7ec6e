//! The text that the program writes for its three files.

use crate::answer::Answer;
use crate::calls;
use crate::law::Law;
use crate::steps::script_steps;

const VERDICTS: [&str; 4] = ["", "exposed", "hinted", "sealed"];

/// What `hubscreen` writes for these contents; a missing file is an empty one.
pub fn listing(itinerary: &[u8], policy: &[u8], script: &[u8]) -> String {
    let mut itinerary = itinerary.to_vec();
    let mut answers = vec![0; script.len() / 4];
    let outcome = calls::screen(Law::Document, &mut itinerary, policy, script, &mut answers);
    let answer = Answer::from(outcome);
    if answer.number != 0 {
        return format!("refused {} {}\n", answer.number, answer.record);
    }
    let [verdict, bits, ins, outs, opens, standing] = answer.values;
    let mut text = format!("{} {} {}\n", VERDICTS[verdict as usize / 256], verdict % 256, bits);
    for ((actor, partner), answer) in script_steps(script).into_iter().zip(answers) {
        text += &format!("{actor} {partner} {answer}\n");
    }
    text + &format!("end {ins} {outs} {opens} {standing}\n")
}
