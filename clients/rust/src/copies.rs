//! The copies of one request to begin, and what the answers to them say of it.
use crate::client::Ending;
use crate::wire::{Answer, Answered, BeginFault, Part, Tx};

/// A request to begin that was sent once or several times. Under its serial a centre begins at most one transaction until it starts anew, but
/// it notes nothing where it refuses to, so a later copy may be begun.
pub(crate) struct Copies<'a> {
    parts: &'a [Part],
    /// The epoch of the last answer before the first copy was sent.
    epoch: Option<u32>,
    /// How many were sent, and how many of them were refused.
    pub(crate) sent: u32,
    refused: u32,
    begun: Option<Tx>,
}

impl Copies<'_> {
    pub(crate) fn new(parts: &[Part], epoch: Option<u32>) -> Copies<'_> {
        Copies { parts, epoch, sent: 0, refused: 0, begun: None }
    }

    /// Whether a copy was refused, and none is known to be begun.
    pub(crate) fn is_refused(&self) -> bool {
        self.refused > 0 && self.begun.is_none()
    }

    /// The end that an answer tells; None where it tells none that stays.
    pub(crate) fn take(&mut self, answered: Answered) -> Option<Ending> {
        match answered.answer {
            Answer::Begun(tx) => {
                self.begun = Some(tx);
                None
            }
            Answer::Ended { tx, is_commit: true } => Some(Ending::Committed(tx)),
            Answer::Ended { tx, .. } if self.sent <= 1 || self.is_in_epoch(answered.epoch) => Some(Ending::Aborted(tx)),
            Answer::Ended { .. } => Some(Ending::Unknown),
            Answer::NoTransaction(fault) => Some(Ending::NoTransaction(fault)),
            Answer::Refused { key, fault } => self.refuse(answered.epoch, key, fault),
            Answer::Shown(_) => None,
        }
    }

    fn is_in_epoch(&self, epoch: u32) -> bool {
        self.epoch == Some(epoch)
    }

    fn refuse(&mut self, epoch: u32, key: String, fault: BeginFault) -> Option<Ending> {
        self.refused += 1;
        if let Some(tx) = self.begun {
            // A centre that was started anew has forgotten what it began; else the refused copy came before the one that was begun.
            return (tx.epoch != epoch).then_some(Ending::Unknown);
        }
        let is_last = self.refused >= self.sent || self.is_in_epoch(epoch) && self.has_passed(&key, &fault);
        is_last.then_some(Ending::Refused { key, fault })
    }

    /// Whether the centre holds a later version than the part of this key names. Versions only rise, so no later copy is begun there.
    fn has_passed(&self, key: &str, fault: &BeginFault) -> bool {
        let (BeginFault::Stale { version, .. } | BeginFault::Unseen { version }) = fault else {
            return false;
        };
        self.parts.iter().any(|part| part.key == key && part.version < *version)
    }
}

#[cfg(test)]
mod tests {
    use super::*;
    use crate::wire::{Item, Update};

    const TX: Tx = Tx { centre: 1, epoch: 3, sequence: 257 };

    fn parts(version: u64) -> [Part; 1] {
        let update = Update::Write { item: Item { body: Vec::new(), numbers: vec![1] }, seen: Vec::new() };
        [Part { key: "cup".to_string(), version, update }]
    }

    fn refused(fault: BeginFault) -> Answer {
        Answer::Refused { key: "cup".to_string(), fault }
    }

    /// What the answers say, each with its epoch, where so many copies were sent to a centre in its epoch 3.
    fn said(version: u64, sent: u32, answers: &[(u32, Answer)]) -> Option<Ending> {
        let parts = parts(version);
        let mut copies = Copies { sent, ..Copies::new(&parts, Some(3)) };
        answers.iter().find_map(|(epoch, answer)| copies.take(Answered { serial: 7, epoch: *epoch, answer: answer.clone() }))
    }

    #[test]
    fn a_later_copy_may_be_begun() {
        let busy = || (3, refused(BeginFault::Busy));
        let end = Ending::Refused { key: "cup".to_string(), fault: BeginFault::Busy };
        assert_eq!(said(1, 1, &[busy()]), Some(end.clone()));
        assert_eq!(said(1, 2, &[busy()]), None);
        assert_eq!(said(1, 2, &[busy(), busy()]), Some(end));
        let ended = (3, Answer::Ended { tx: TX, is_commit: true });
        assert_eq!(said(1, 2, &[busy(), (3, Answer::Begun(TX)), ended.clone()]), Some(Ending::Committed(TX)));
        assert_eq!(said(1, 2, &[(3, Answer::Begun(TX)), busy(), ended]), Some(Ending::Committed(TX)));
    }

    #[test]
    fn a_version_that_is_passed_stays_so() {
        let stale = |version| (3, refused(BeginFault::Stale { version, seen: Vec::new() }));
        assert!(matches!(said(1, 2, &[stale(2)]), Some(Ending::Refused { .. })));
        assert_eq!(said(1, 2, &[stale(1)]), None);
        assert_eq!(said(2, 2, &[stale(1)]), None);
        assert_eq!(said(1, 2, &[(4, stale(2).1)]), None);
    }

    #[test]
    fn a_centre_that_started_anew_has_forgotten() {
        let aborted = Answer::Ended { tx: TX, is_commit: false };
        assert_eq!(said(1, 2, &[(3, aborted.clone())]), Some(Ending::Aborted(TX)));
        assert_eq!(said(1, 2, &[(4, aborted.clone())]), Some(Ending::Unknown));
        assert_eq!(said(1, 1, &[(4, aborted)]), Some(Ending::Aborted(TX)));
        assert_eq!(said(1, 2, &[(3, Answer::Begun(TX)), (4, refused(BeginFault::Busy))]), Some(Ending::Unknown));
    }
}
