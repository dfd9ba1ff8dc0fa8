//! Where a packet goes next.
use crate::refusal::done;
use crate::{sys, Address, Refusal};

/// Where a packet goes next.
#[derive(Clone, Copy, Debug, PartialEq, Eq, Hash)]
pub enum Hop {
    /// It is for this node, which is named.
    Deliver(Address),
    /// To the parent, which is named.
    Parent(Address),
    /// To the child named.
    Child(Address),
}

impl Hop {
    /// The hop that an answer says. An action that this crate doesn't know stops the program: a packet is passed nowhere by a guess.
    pub(crate) fn answered(answer: sys::Hop) -> Result<Hop, Refusal> {
        done(answer.refusal, || {
            let node = Address::answered(answer.node);
            match answer.action {
                sys::DELIVERED => Hop::Deliver(node),
                sys::TO_PARENT => Hop::Parent(node),
                sys::TO_CHILD => Hop::Child(node),
                other => panic!("an answer without a refusal has action 1, 2 or 3, not {other}"),
            }
        })
    }
}

#[cfg(test)]
mod tests {
    use super::*;

    fn answer(refusal: u8, action: u8) -> Result<Hop, Refusal> {
        Hop::answered(sys::Hop { node: 1, refusal, action })
    }

    #[test]
    fn known_actions() {
        assert_eq!(answer(0, 1), Ok(Hop::Deliver(Address::ROOT)));
        assert_eq!(answer(0, 2), Ok(Hop::Parent(Address::ROOT)));
        assert_eq!(answer(0, 3), Ok(Hop::Child(Address::ROOT)));
    }

    #[test]
    fn a_refusal_counts_before_the_action() {
        assert_eq!(answer(7, 3), Err(Refusal::ChildNotGiven));
        assert_eq!(answer(16, 3), Err(Refusal::EmptyPayload));
        assert_eq!(answer(18, 3), Err(Refusal::Unknown(18)));
        assert_eq!(answer(255, 0), Err(Refusal::Unknown(255)));
    }

    #[test]
    fn any_other_action_stops() {
        for action in (0..=u8::MAX).filter(|action| !(1..=3).contains(action)) {
            assert!(std::panic::catch_unwind(|| answer(0, action)).is_err(), "action {action}");
        }
    }
}
