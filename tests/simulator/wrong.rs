//! What can be wrong with a run.

/// The kinds of what can be wrong with a run. A shortened schedule fails in the same kind.
#[derive(Clone, Copy, PartialEq, Eq, PartialOrd, Ord, Debug)]
pub enum Wrong {
    /// A process was ended by a trap.
    Trap,
    /// A status that isn't one of 0 to 4, or says that memory ran out where none was refused.
    Status,
    /// Standard error has a line that begins otherwise than with the program's name.
    Errors,
    /// A process held more memory than its bound.
    Memory,
    /// An operation went on for too long although nothing went wrong any more.
    Late,
    /// The server ended by itself.
    ServerEnded,
    /// A status and the messages say different things.
    Reason,
    /// A reply that isn't an answer to its command, or an error that nothing caused.
    Reply,
    /// A content that nobody put, as a mixture is.
    Foreign,
    /// The server's folder holds what nobody put.
    Folder,
    /// A local file isn't what its get reported.
    Local,
    /// A file is left over.
    Leftover,
    /// An operation failed although nothing went wrong while it ran.
    Failed,
    /// A get at the end failed, although nothing goes wrong any more.
    Final,
    /// No order explains the history.
    Order,
    /// Packets were sent again although nothing was lost and nothing was late.
    Repeated,
}

impl Wrong {
    /// Whether it is wrong also where bits flipped on links in clear, so that no content and no message can be trusted.
    pub fn is_always_wrong(self) -> bool {
        matches!(self, Wrong::Trap | Wrong::Status | Wrong::Errors | Wrong::Memory | Wrong::Late | Wrong::ServerEnded)
    }
}

/// What is wrong with a run.
#[derive(Clone, PartialEq, Eq, Debug)]
pub struct Complaint {
    pub wrong: Wrong,
    pub text: String,
}
