//! How document 01 is read, with the requests of document 02 that have landed.
//!
//! Every answer is given under `Document`. The other readings are wrong; they
//! exist so that the self-check can be shown to find each of them. The first
//! six are those of document 01, "Readings that fail here".

#[derive(Clone, Copy, Debug, PartialEq, Eq)]
pub enum Reading {
    /// Document 01 with the requests that have landed.
    Document,
    /// EG classes matched one step by the operand only.
    EgMatchedByOperand,
    /// Merging without the guard.
    NoGuard,
    /// EU reaches the second at step 1 or later.
    EuWithoutStepZero,
    /// A path may end where no step stays in the operand.
    DeadEndIsPath,
    /// PASS of EX from one assignment only.
    ExPassFromOneAssignment,
    /// Relation at an EX, EG or EU node without relation at its operands.
    WithoutOperandRelation,
    /// The guard takes FAIL of marks computed on the merged tables.
    GuardFromMergedMarks,
    /// Related states may differ in any output.
    WithoutEqualOutputs,
    /// Each state is related to itself only.
    EveryStateAlone,
    /// PASS and FAIL of EX, EG and EU are empty.
    NothingMarked,
    /// Fixed points stop after one round.
    OneRound,
    /// FAIL of EU: a state in FAIL of the first is enough, FAIL of the second
    /// is needed only before it.
    EuFailUpToBefore,
    /// The largest PASS of EG needs a successor on one assignment only.
    EgPassFromOneAssignment,
    /// FAIL successors need a related successor too.
    FailSuccessorsMatched,
    /// Two PASS or two FAIL states need matching steps too.
    WithoutBothMarked,
    /// A foreign signal is marked as if it were low.
    ForeignSignalFails,
    /// FAIL of or from FAIL of one operand.
    OrFailFromOne,
    /// External signals are always low.
    ExternalAlwaysLow,
    /// Two components that read the same external signal may see two levels.
    ExternalNotShared,
    /// The last listed input is bit 0 of an assignment.
    InputsReversed,
    /// An empty successor set means state 0.
    EmptySetIsStateZero,
    /// An empty successor set means the state whose number is the set's place in
    /// the table, counted over states and assignments (modulo the states).
    EmptySetIsPlace,
    /// Whole output words are compared, also outputs that no other component lists.
    WholeOutputWords,
    /// Of the outputs, only those are compared that a later component lists.
    ReadByLaterOnly,
    /// Of the outputs, only those are compared that an earlier component lists.
    ReadByEarlierOnly,
    /// An output is compared only if a step of another component depends on it.
    UsedInsteadOfListed,
    /// A signal node keeps the level of an output only if another component lists it.
    SignalNodeOfReadOnly,
}

/// Every wrong reading.
pub const WRONG_READINGS: [Reading; 27] = [
    Reading::EgMatchedByOperand,
    Reading::NoGuard,
    Reading::EuWithoutStepZero,
    Reading::DeadEndIsPath,
    Reading::ExPassFromOneAssignment,
    Reading::WithoutOperandRelation,
    Reading::GuardFromMergedMarks,
    Reading::WithoutEqualOutputs,
    Reading::EveryStateAlone,
    Reading::NothingMarked,
    Reading::OneRound,
    Reading::EuFailUpToBefore,
    Reading::EgPassFromOneAssignment,
    Reading::FailSuccessorsMatched,
    Reading::WithoutBothMarked,
    Reading::ForeignSignalFails,
    Reading::OrFailFromOne,
    Reading::ExternalAlwaysLow,
    Reading::ExternalNotShared,
    Reading::InputsReversed,
    Reading::EmptySetIsStateZero,
    Reading::EmptySetIsPlace,
    Reading::WholeOutputWords,
    Reading::ReadByLaterOnly,
    Reading::ReadByEarlierOnly,
    Reading::UsedInsteadOfListed,
    Reading::SignalNodeOfReadOnly,
];
