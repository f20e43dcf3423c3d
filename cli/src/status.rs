//! Exit statuses, the same for every command.

#[derive(Clone, Copy, Debug, PartialEq, Eq)]
pub enum Status {
    /// Done; of `judge`: every reading is Quiet.
    Done,
    /// A text is refused.
    Refused,
    /// No answer: bad usage, or a file, folder or stream that cannot be read or written.
    Failed,
    /// Of `judge`: some reading is an Alarm or is turned back.
    NotAllQuiet,
}

impl Status {
    pub fn code(self) -> u8 {
        match self {
            Status::Done => 0,
            Status::Refused => 1,
            Status::Failed => 2,
            Status::NotAllQuiet => 3,
        }
    }
}
