//! Verdicts beside what the room file expects of them: `expect BROKEN` turns a verdict round.
use crate::ask::{Answer, Verdict};
use crate::room::{Question, Room};

/// What a verdict comes to, from fine to bad.
#[derive(Clone, Copy, Debug, PartialEq, Eq, PartialOrd, Ord)]
pub enum Finding {
    Safe,
    /// Broken, as the file expects.
    AsExpected,
    NoVerdict,
    /// Safe, where the file expects it to be broken: a known fault is gone.
    Unexpected,
    Broken,
}

impl Finding {
    pub fn new(question: &Question, verdict: &Verdict) -> Finding {
        match (verdict, question.expect_broken) {
            (Verdict::None(_), _) => Finding::NoVerdict,
            (Verdict::Safe(_), false) => Finding::Safe,
            (Verdict::Safe(_), true) => Finding::Unexpected,
            (Verdict::Broken(_), false) => Finding::Broken,
            (Verdict::Broken(_), true) => Finding::AsExpected,
        }
    }

    /// The word before a question or a room.
    pub fn word(self) -> &'static str {
        match self {
            Finding::Safe => "SAFE",
            Finding::AsExpected => "AS EXPECTED",
            Finding::NoVerdict => "NO VERDICT",
            Finding::Unexpected => "UNEXPECTED",
            Finding::Broken => "BROKEN",
        }
    }

    /// The verdict itself, where the word does not say it.
    pub fn verdict(self) -> &'static str {
        match self {
            Finding::AsExpected => "BROKEN: ",
            Finding::Unexpected => "SAFE: ",
            _ => "",
        }
    }
}

/// What the answers to a room's questions come to, one by one.
pub fn findings(room: &Room, answers: &[Answer]) -> Vec<Finding> {
    (room.questions.iter().zip(answers))
        .map(|(question, answer)| Finding::new(question, &answer.verdict))
        .collect()
}

/// The worst of them.
pub fn worst(findings: &[Finding]) -> Finding {
    findings.iter().copied().max().unwrap_or(Finding::Safe)
}
