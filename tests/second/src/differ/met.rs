//! Which answers a run has met: one that misses an answer has not tried it.

use std::fmt::Display;

/// Prints how often each answer of each call was met, a call as its place among
/// the outcomes; says whether every one was.
pub fn every<Answer: Copy + PartialEq + Display>(
    outcomes: &[(&str, &[Answer])],
    met: &[(usize, Answer)],
) -> bool {
    let mut complete = true;
    for (call, (name, answers)) in outcomes.iter().enumerate() {
        for &answer in answers.iter() {
            let times = met.iter().filter(|&&its| its == (call, answer)).count();
            println!("{:24}{:<8}{:9}", name, answer, times);
            complete = complete && times > 0;
        }
    }
    complete
}
