//! Refusals by number and in words.

/// The question that was answered No.
#[derive(Clone, Copy, Debug, PartialEq, Eq)]
pub enum Refusal {
    ShortSlice,
    Limits,
    HeaderWord,
    Malformed,
    Header,
    TooManyRows,
    NotSixFields,
    UnknownKind,
    FieldsUsed,
    NumberRange,
    RangeEnd,
    MessageOrder,
    UnlawfulState,
    RowNumber,
    NotOfFile,
    MapSpace,
    AnswerSpace,
    TextSpace,
    SharedProcess,
    Stuck,
    WaitOrder,
    BarrierOrder,
    ListSpace,
}

impl Refusal {
    pub const ALL: [Refusal; 23] = [
        Refusal::ShortSlice,
        Refusal::Limits,
        Refusal::HeaderWord,
        Refusal::Malformed,
        Refusal::Header,
        Refusal::TooManyRows,
        Refusal::NotSixFields,
        Refusal::UnknownKind,
        Refusal::FieldsUsed,
        Refusal::NumberRange,
        Refusal::RangeEnd,
        Refusal::MessageOrder,
        Refusal::UnlawfulState,
        Refusal::RowNumber,
        Refusal::NotOfFile,
        Refusal::MapSpace,
        Refusal::AnswerSpace,
        Refusal::TextSpace,
        Refusal::SharedProcess,
        Refusal::Stuck,
        Refusal::WaitOrder,
        Refusal::BarrierOrder,
        Refusal::ListSpace,
    ];

    /// The number that the documents give it, from 1.
    pub fn number(self) -> u32 {
        self as u32 + 1
    }

    /// The refusal of a number; `None` for 0 and for numbers that no question has.
    pub fn from_number(number: u32) -> Option<Refusal> {
        number.checked_sub(1).and_then(|k| Self::ALL.get(k as usize)).copied()
    }

    /// The question, and so what was found not to hold.
    pub fn question(self) -> &'static str {
        match self {
            Refusal::ShortSlice => "Are the lent slices long enough?",
            Refusal::Limits => concat!("Are model 0 to 3, row limit 1 to 4,096 and process limit 1 to ", processes!(), "?"),
            Refusal::HeaderWord => "Is the header word 0 (absent) or 1 (present)?",
            Refusal::Malformed => {
                "Is the record well formed (RFC 4180: quotes in pairs, nothing behind a closing quote, CR LF at its end)?"
            }
            Refusal::Header => "Is the first record the header process,kind,file,offset,length,message?",
            Refusal::TooManyRows => "Is the row within the row limit, and its record within the byte limit?",
            Refusal::NotSixFields => "Has the record six fields?",
            Refusal::UnknownKind => "Is the kind read, write, commit, open, close, sync, send, recv, wait or barrier?",
            Refusal::FieldsUsed => "Are the fields that the kind uses filled, and the others empty?",
            Refusal::NumberRange => "Is each number plain (digits, no leading zero) and within its range?",
            Refusal::RangeEnd => "Is offset + length at most 4,294,967,295?",
            Refusal::MessageOrder => {
                "Is a send's message unsent so far, and any receive posted before it another process's; is a recv's not posted before, and not sent by this process?"
            }
            Refusal::UnlawfulState => "Is the state one that making and steps leave?",
            Refusal::RowNumber => "Is the row number 1 to 4,096?",
            Refusal::NotOfFile => "Is the row a read, write, commit, open, close or sync of this file?",
            Refusal::MapSpace => "Does every map after the row fit its space?",
            Refusal::AnswerSpace => "Does the read's list of pieces fit the lent answer slice?",
            Refusal::TextSpace => "Does the text fit the lent slice from its place on?",
            Refusal::SharedProcess => "Does every process have its rows in one of the two files alone?",
            Refusal::Stuck => {
                "Can one of the next rows be taken: if it is a wait, has a taken row sent its message, and is every barrier finished at which its process stands?"
            },
            Refusal::WaitOrder => "Was the wait's message posted earlier by this process, sent earlier, and not yet waited for?",
            Refusal::BarrierOrder => {
                "Does no process arrive at a barrier twice, or go on before all have arrived, and is every barrier finished at the trace's end?"
            }
            Refusal::ListSpace => "Is the lent list long enough for every race, two numbers each?",
        }
    }
}
