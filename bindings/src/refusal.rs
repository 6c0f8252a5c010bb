//! Why a run, a sweep, lists or a table are refused.
use crate::numbers::refusals;

refusals! {
    /// Why a call was refused; nothing was run or written then. The lowest number comes first, but 47 between 8 and 9, and 45, 51 and 52 last. A
    /// run is refused with 1 to 12, 47 and 51, a sweep with 1 to 10, 47 and 52, lists and tables that are taken apart with 1 to 8, 47 and 45, and
    /// the label line also with 46.
    Refusal {
        TableLength = 1 => "the table has under 6 bytes, or its length field is over 6,276 or not the true length",
        TableVersion = 2 => "the table's version (byte 2) is neither 1 nor 2",
        TableCounts = 3 => "boards not 2 to 16, processes not 1 to 16, or channels not 1 to 32",
        TableExtent = 4 => "a process has over 64 instructions, or the pairs and process records don't end exactly with the table; of lists, one is not as long as its counts say",
        ChannelEnds = 5 => "a channel's end is neither a process of the table nor 255, or both are 255",
        ChannelsRead = 6 => "a process reads more than four channels",
        Boards = 7 => "a process's board or backup board is not below B, or they are the same",
        Instruction = 8 => "an instruction: no such code, a register over 3 (over 2 for FIRST), a channel that the process doesn't read (TAKE, FIRST) or isn't the sender of (SEND), a mask of no or more than four bits, a jump beyond n",
        ScheduleLength = 9 => "the schedule has under 3 bytes, a wrong length field, a broken record or over 10,000 records",
        ScheduleVersion = 10 => "the schedule's version (byte 2) is not 1",
        AnswersShort = 11 => "the answer buffer has under six bytes a record, or the buffer of reasons under one",
        ReportShort = 12 => "the report buffer has under 20 bytes a process",
        NoRoom = 45 => "of a table written or taken apart: the buffer is shorter than the table, or a list lent is shorter than the table's",
        FirstSerial = 46 => "of the label line alone: a first serial above 4,294,957,295; then no table is made",
        Limit = 47 => "a table of version 2: a process's limit is outside 1 to 16",
        OriginsShort = 51 => "the buffer of origins has under two bytes a record",
        Unswept = 52 => "of a sweep alone: the schedule has a record of move 5 or 8, whatever its a and word, or over 500 records",
        ViewShort = 54 => "of a view alone: the lent list has under 11,187 numbers",
    }
}

impl Refusal {
    /// What a call returned, if it was accepted; its lowest byte is the number.
    pub(crate) fn or<T>(result: u64, accepted: impl FnOnce() -> T) -> Result<T, Refusal> {
        match result as u8 {
            0 => Ok(accepted()),
            number => Err(Refusal::try_from(number).expect("a call returns 0 or one of these")),
        }
    }
}
