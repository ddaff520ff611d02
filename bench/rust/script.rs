//! A reader of scripts: one pass over the bytes of each line.

use std::fs;

#[derive(Clone, Copy)]
pub enum Instruction {
    Load(u32),
    Store(u32, u32),
    Add(u32, u32),
    Acquire(u32),
    Release(u32),
    Barrier,
    Set(u32),
    Await(u32),
    Cut,
}

pub struct Script {
    pub sizes: Sizes,
    pub sections: Vec<Vec<Instruction>>,
    pub shown: Vec<u32>,
}

pub struct Sizes {
    pub processors: u32,
    pub pages: u32,
    pub words: u32,
    pub locks: u32,
    pub flags: u32,
    addresses: u32,
}

/// The bytes that are left.
struct Reader<'a> {
    rest: &'a [u8],
}

impl<'a> Reader<'a> {
    /// The word up to the next space or line feed, which stays.
    #[inline(always)]
    fn word(&mut self) -> &'a [u8] {
        let end = self.rest.iter().position(|byte| *byte == b' ' || *byte == b'\n').unwrap_or(self.rest.len());
        let (word, rest) = self.rest.split_at(end);
        self.rest = rest;
        word
    }

    #[inline(always)]
    fn ends(&mut self) -> Option<()> {
        let (first, rest) = self.rest.split_first()?;
        self.rest = rest;
        if *first == b'\n' { Some(()) } else { None }
    }

    /// A number below the limit, with one space before it and no zero at its head.
    #[inline(always)]
    fn number(&mut self, limit: u64) -> Option<u32> {
        let (space, digits) = self.rest.split_first()?;
        if *space != b' ' {
            return None;
        }
        let mut value = 0u64;
        let mut length = 0;
        while let Some(byte) = digits.get(length) {
            let digit = byte.wrapping_sub(b'0');
            if digit > 9 || length == 10 {
                break;
            }
            value = 10 * value + u64::from(digit);
            length += 1;
        }
        if length == 0 || length > 1 && digits[0] == b'0' || value >= limit {
            return None;
        }
        self.rest = &digits[length..];
        Some(value as u32)
    }

    fn cluster(&mut self) -> Option<Sizes> {
        if self.word() != b"cluster" {
            return None;
        }
        let processors = self.number(17)?;
        let pages = self.number(65)?;
        let words = self.number(65)?;
        let locks = self.number(33)?;
        let flags = if self.rest.first() == Some(&b' ') { self.number(33)? } else { 0 };
        self.ends()?;
        if processors == 0 || pages == 0 || words == 0 {
            return None;
        }
        Some(Sizes { processors, pages, words, locks, flags, addresses: pages * words })
    }

    #[inline(always)]
    fn instruction(&mut self, word: &[u8], sizes: &Sizes) -> Option<Instruction> {
        let addresses = u64::from(sizes.addresses);
        let instruction = match word {
            b"load" => Instruction::Load(self.number(addresses)?),
            b"store" => Instruction::Store(self.number(addresses)?, self.number(1 << 32)?),
            b"add" => Instruction::Add(self.number(addresses)?, self.number(1 << 32)?),
            b"acquire" => Instruction::Acquire(self.number(u64::from(sizes.locks))?),
            b"release" => Instruction::Release(self.number(u64::from(sizes.locks))?),
            b"barrier" => Instruction::Barrier,
            b"set" => Instruction::Set(self.number(u64::from(sizes.flags))?),
            b"await" => Instruction::Await(self.number(u64::from(sizes.flags))?),
            b"cut" => Instruction::Cut,
            _ => return None,
        };
        self.ends()?;
        Some(instruction)
    }
}

pub fn parse(bytes: &[u8]) -> Option<Script> {
    let mut reader = Reader { rest: bytes };
    let sizes = reader.cluster()?;
    let mut sections: Vec<Vec<Instruction>> = Vec::new();
    let mut held = 0u32;
    loop {
        match reader.word() {
            b"p" => {
                let number = reader.number(u64::from(sizes.processors))?;
                reader.ends()?;
                if number as usize != sections.len() {
                    return None;
                }
                sections.push(Vec::new());
                held = 0;
            }
            b"show" => break,
            word => {
                let instruction = reader.instruction(word, &sizes)?;
                let section = sections.last_mut()?;
                if section.len() == 10_000 {
                    return None;
                }
                match instruction {
                    Instruction::Acquire(lock) if held >> lock & 1 == 0 => held |= 1 << lock,
                    Instruction::Release(lock) if held >> lock & 1 == 1 => held &= !(1 << lock),
                    Instruction::Acquire(_) | Instruction::Release(_) => return None,
                    _ => {}
                }
                section.push(instruction);
            }
        }
    }
    let mut shown = Vec::new();
    while reader.rest.first() == Some(&b' ') {
        shown.push(reader.number(u64::from(sizes.addresses))?);
    }
    reader.ends()?;
    let even = |section: &Vec<Instruction>| section.iter().filter(|i| matches!(i, Instruction::Barrier)).count();
    let lawful = reader.rest.is_empty()
        && sections.len() == sizes.processors as usize
        && sections.iter().all(|section| even(section) == even(&sections[0]));
    if lawful { Some(Script { sizes, sections, shown }) } else { None }
}

pub fn parses(file: &str, times: usize) -> usize {
    let bytes = fs::read(file).expect("the file");
    let mut shown = 0;
    for _ in 0..times {
        let script = parse(&bytes).expect("a script");
        shown = script.shown.len();
        std::hint::black_box(&script.sections);
    }
    shown
}
