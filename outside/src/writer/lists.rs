//! A table as lists of numbers, judged and written from documents 01 and 02 (W-201, W-207) alone.
use outside::random::Random;
use outside::rules::reader::{Instruction, Table, OUTSIDE};

/// The version; boards, processes and channels; then channel ends, placements, limits and instructions. Version 1 has no limits.
#[derive(Clone, Debug, PartialEq, Eq)]
pub struct Lists {
    pub version: u32,
    pub counts: [u32; 3],
    pub lists: [Vec<u32>; 4],
}

impl Lists {
    pub fn of(table: &Table) -> Lists {
        let mut lists: [Vec<u32>; 4] = Default::default();
        table.channels.iter().for_each(|ends| lists[0].extend([ends.sender as u32, ends.reader as u32]));
        for process in &table.processes {
            lists[1].extend([process.primary as u32, process.backup as u32, process.program.len() as u32]);
            if table.version == 2 {
                lists[2].push(process.limit as u32);
            }
            for &instruction in &process.program {
                lists[3].extend(match instruction {
                    Instruction::Set { a, word } => [1, a as u32, word],
                    Instruction::Add { a, b } => [2, a as u32, b as u32],
                    Instruction::Take { a, channel } => [3, a as u32, channel as u32],
                    Instruction::First { a, mask } => [4, a as u32, mask],
                    Instruction::Send { a, channel } => [5, a as u32, channel as u32],
                    Instruction::Jump { a, place } => [6, a as u32, place as u32],
                });
            }
        }
        let counts = [table.boards as u32, table.processes.len() as u32, table.channels.len() as u32];
        Lists { version: table.version as u32, counts, lists }
    }

    /// 0, or the number that refuses them: W-207, 2 "first of all"; 3 to 8, the lowest first over the whole table; and 47.
    pub fn number(&self) -> u8 {
        let [boards, processes, channels] = self.counts.map(u64::from);
        let [ends, placements, limits, instructions] = &self.lists;
        if self.version != 1 && self.version != 2 {
            return 2;
        }
        if !(2..=16).contains(&boards) || !(1..=16).contains(&processes) || !(1..=32).contains(&channels) {
            return 3;
        }
        // "takes no limits for version 1 (else 4)"
        let limited = if self.version == 1 { 0 } else { processes };
        let sized =
            ends.len() as u64 == 2 * channels && placements.len() as u64 == 3 * processes && limits.len() as u64 == limited;
        if !sized || placements.chunks(3).any(|p| p[2] > 64) {
            return 4;
        }
        let total: u32 = placements.chunks(3).map(|p| p[2]).sum();
        if instructions.len() as u32 != 3 * total {
            return 4;
        }
        let process = |end: u32| (end as u64) < processes;
        let outside = |end: u32| end == OUTSIDE as u32;
        for pair in ends.chunks(2) {
            if !pair.iter().all(|&end| process(end) || outside(end)) || pair.iter().all(|&end| outside(end)) {
                return 5;
            }
        }
        if (0..processes as u32).any(|p| ends.chunks(2).filter(|pair| pair[1] == p).count() > 4) {
            return 6;
        }
        if placements.chunks(3).any(|p| p[0] as u64 >= boards || p[1] as u64 >= boards || p[0] == p[1]) {
            return 7;
        }
        let mut at = 0;
        for (p, placement) in placements.chunks(3).enumerate() {
            let end = at + 3 * placement[2] as usize;
            if instructions[at..end].chunks(3).any(|i| !self.sound(p as u32, placement[2], i)) {
                return 8;
            }
            at = end;
        }
        // "47, a limit outside 1 to 16, checked after 8 and before 9 (before 45 in the writer)"
        if limits.iter().any(|limit| !(1..=16).contains(limit)) {
            return 47;
        }
        0
    }

    /// An instruction of process p, whose program has n.
    fn sound(&self, p: u32, n: u32, instruction: &[u32]) -> bool {
        let (code, a, operand) = (instruction[0], instruction[1], instruction[2]);
        let end_is =
            |k: u32, side: usize| self.lists[0].get(2 * k as usize + side).is_some_and(|&end| k < self.counts[2] && end == p);
        match code {
            1 => a < 4,
            2 => a < 4 && operand < 4,
            3 => a < 4 && end_is(operand, 1),
            4 => {
                let named: Vec<u32> = (0..32).filter(|k| operand >> k & 1 == 1).collect();
                a < 3 && (1..=4).contains(&named.len()) && named.iter().all(|&k| end_is(k, 1))
            }
            5 => a < 4 && end_is(operand, 0),
            6 => a < 4 && operand <= n,
            _ => false,
        }
    }

    /// One number changed, added or left out somewhere.
    pub fn damaged(mut self, random: &mut Random) -> Lists {
        let odd = [0, 1, 2, 3, 4, 5, 6, 7, 15, 16, 17, 32, 33, 63, 64, 65, 254, 255, 256, 257, 261, 511, 512, 65_536, u32::MAX];
        let number = match random.below(3) {
            0 => random.word(),
            _ => random.pick(&odd),
        };
        match random.below(14) {
            0..=1 => self.counts[random.below(3) as usize] = number,
            2 => {
                let list = &mut self.lists[random.below(4) as usize];
                let at = random.below(list.len() as u32 + 1) as usize;
                list.insert(at, number);
            }
            3 => {
                let list = &mut self.lists[random.below(4) as usize];
                if !list.is_empty() {
                    list.remove(random.below(list.len() as u32) as usize);
                }
            }
            4 => {
                // one process reads more and more
                let reader = random.below(self.counts[1].max(1));
                self.lists[0].iter_mut().skip(1).step_by(2).take(6).for_each(|end| *end = reader);
            }
            5 => self.version = random.pick(&[0, 1, 2, 3, 255, 256, 257, 258, number]),
            n => {
                let list = &mut self.lists[n as usize % 4];
                if !list.is_empty() {
                    let at = random.below(list.len() as u32) as usize;
                    list[at] = match random.below(3) {
                        // the same low byte
                        0 => list[at].wrapping_add(256),
                        _ => number,
                    };
                }
            }
        }
        self
    }
}
