//! Document 01's plain cabinet: "It holds for each process four registers and a place, all 0 at first, and an inbox, a list of channels
//! with words, of any length. Beside them is its bus order." It knows nothing of boards, queues, backups and limits.
use kunzeastylus::{BusWord, End, Operation, Table};
use std::fmt;

/// "a list of feeds and steps"
#[derive(Clone, Copy, Debug, PartialEq, Eq)]
pub enum PlainMove {
    Feed { channel: u8, word: u32 },
    Step { process: u8 },
}

/// What a move did.
#[derive(Clone, Copy, Debug, PartialEq, Eq)]
pub enum Did {
    /// A word went to the bus order, and to its reader.
    Put(BusWord),
    Took {
        channel: u8,
        word: u32,
    },
    Calculated,
}

/// Why a move was refused; it changed nothing.
#[derive(Clone, Copy, Debug, PartialEq, Eq)]
pub enum Refused {
    NotFromOutside,
    NoSuchProcess,
    Halted,
    NoWord,
}

impl fmt::Display for Refused {
    fn fmt(&self, out: &mut fmt::Formatter) -> fmt::Result {
        out.write_str(match self {
            Refused::NotFromOutside => "the outside sends on no such channel",
            Refused::NoSuchProcess => "there is no such process",
            Refused::Halted => "it has halted",
            Refused::NoWord => "no such word is there",
        })
    }
}

/// A process: its place, its registers, and its unread words with their channels.
#[derive(Clone, Debug, Default, PartialEq, Eq)]
pub struct Machine {
    pub place: usize,
    pub registers: [u32; 4],
    pub inbox: Vec<(u8, u32)>,
}

#[derive(Clone, Debug)]
pub struct Plain<'t> {
    table: &'t Table,
    pub machines: Vec<Machine>,
    pub bus: Vec<BusWord>,
}

impl<'t> Plain<'t> {
    /// "All these lists are empty at first."
    pub fn new(table: &'t Table) -> Plain<'t> {
        Plain { table, machines: vec![Machine::default(); table.processes.len()], bus: Vec::new() }
    }

    pub fn make(&mut self, plain: PlainMove) -> Result<Did, Refused> {
        match plain {
            PlainMove::Feed { channel, word } => self.feed(channel, word),
            PlainMove::Step { process } => self.step(process),
        }
    }

    /// The instruction at a process's place; none where it has halted.
    pub fn next(&self, process: u8) -> Option<Operation> {
        let machine = self.machines.get(usize::from(process))?;
        self.table.processes[usize::from(process)].program.get(machine.place).copied()
    }

    /// "Feed of a channel whose sender is the outside, with any word: channel and word go to the end of the reader's inbox and of the bus
    /// order. A feed of any other channel is refused."
    fn feed(&mut self, channel: u8, word: u32) -> Result<Did, Refused> {
        match self.table.channels.get(usize::from(channel)) {
            Some((End::Outside, _)) => Ok(self.put(BusWord { channel, word, sender: End::Outside, place: 0 })),
            _ => Err(Refused::NotFromOutside),
        }
    }

    /// To the end of the bus order "and, unless the outside reads the channel, of the reader's inbox".
    fn put(&mut self, sent: BusWord) -> Did {
        self.bus.push(sent);
        if let End::Process(reader) = self.table.channels[usize::from(sent.channel)].1 {
            self.machines[usize::from(reader)].inbox.push((sent.channel, sent.word));
        }
        Did::Put(sent)
    }

    /// "Step of a process: the instruction at its place". "A step is refused exactly where the place is n, or TAKE or FIRST finds no such
    /// word."
    fn step(&mut self, process: u8) -> Result<Did, Refused> {
        let machine = self.machines.get(usize::from(process)).ok_or(Refused::NoSuchProcess)?;
        let (place, operation) = (machine.place, self.next(process).ok_or(Refused::Halted)?);
        let machine = &mut self.machines[usize::from(process)];
        let registers = &mut machine.registers;
        let (mut next, mut did) = (place + 1, Did::Calculated);
        match operation {
            Operation::Set { register, word } => registers[register as usize] = word,
            Operation::Add { register, other } => {
                registers[register as usize] = registers[register as usize].wrapping_add(registers[other as usize]);
            }
            Operation::Take { register, channel } => did = machine.take(register, 1 << channel)?,
            Operation::First { register, mask } => {
                did = machine.take(register, mask)?;
                if let Did::Took { channel, .. } = did {
                    machine.registers[register as usize + 1] = channel.into();
                }
            }
            Operation::Send { register, channel } => {
                let word = registers[register as usize];
                let sender = End::Process(process);
                did = self.put(BusWord { channel, word, sender, place: place as u8 });
            }
            Operation::Jump { register, place } if registers[register as usize] != 0 => next = place as usize,
            Operation::Jump { .. } => (),
        }
        self.machines[usize::from(process)].place = next;
        Ok(did)
    }
}

impl Machine {
    /// "TAKE and FIRST remove the first word in the inbox on a channel they name": bit k of the mask is channel k.
    fn take(&mut self, register: u8, mask: u32) -> Result<Did, Refused> {
        let at = self.inbox.iter().position(|&(channel, _)| mask >> channel & 1 == 1).ok_or(Refused::NoWord)?;
        let (channel, word) = self.inbox.remove(at);
        self.registers[register as usize] = word;
        Ok(Did::Took { channel, word })
    }
}
