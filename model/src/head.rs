//! "The head (Sia encoding)": reader and writer.

/// "At most 32 instructions, 4 operands each, 65,536 bytes declared."
pub const MOST_INSTRUCTIONS: u64 = 32;
pub const MOST_OPERANDS: u64 = 4;
pub const MOST_DECLARED: u64 = 65_536;

#[derive(Clone, Copy, Default, PartialEq, Debug)]
pub struct Operand {
    pub offset: u64,
    pub length: u64,
}

#[derive(Clone, Copy, Default, PartialEq, Debug)]
pub struct Instruction {
    pub name: [u8; 16],
    pub operand_count: u64,
    pub operands: [Operand; 4],
    pub proof: bool,
}

/// "Entries past a count are no part of a head and are read as 0."
#[derive(Clone, Default, PartialEq, Debug)]
pub struct Head {
    pub contract: [u8; 32],
    pub count: u64,
    pub instructions: [Instruction; 32],
    pub declared: u64,
}

/// "The contract "ReadOnly", filled to 32 with zeros, means read-only mode."
pub fn read_only_word() -> [u8; 32] {
    filled(b"ReadOnly")
}

/// "filled with zero bytes"
pub fn filled<const N: usize>(word: &[u8]) -> [u8; N] {
    let mut bytes = [0u8; N];
    bytes[..word.len()].copy_from_slice(word);
    bytes
}

/// Takes bytes from the front, left to right; 9 where "bytes missing".
pub struct Reader<'a> {
    pub rest: &'a [u8],
}

impl<'a> Reader<'a> {
    pub fn bytes(&mut self, count: u64) -> Result<&'a [u8], u64> {
        if count > self.rest.len() as u64 {
            return Err(9);
        }
        let (taken, rest) = self.rest.split_at(count as usize);
        self.rest = rest;
        Ok(taken)
    }

    pub fn array<const N: usize>(&mut self) -> Result<[u8; N], u64> {
        Ok(self.bytes(N as u64)?.try_into().unwrap())
    }

    /// "Numbers are 8 bytes, little-endian."
    pub fn number(&mut self) -> Result<u64, u64> {
        Ok(u64::from_le_bytes(self.array()?))
    }

    /// "a count or the declared length above its limit gives 10", as soon as it is read (decision 27).
    fn number_within(&mut self, most: u64) -> Result<u64, u64> {
        let number = self.number()?;
        if number > most {
            return Err(10);
        }
        Ok(number)
    }
}

/// "Sections come in this order, each list after its count: contract id (32 bytes); instruction count; per instruction ...;
/// declared data length." "bytes missing, a flag above 1 or bytes left over give 9".
pub fn read(bytes: &[u8]) -> Result<Head, u64> {
    let mut reader = Reader { rest: bytes };
    let mut head = Head::default();
    head.contract = reader.array()?;
    head.count = reader.number_within(MOST_INSTRUCTIONS)?;
    for i in 0..head.count as usize {
        head.instructions[i] = read_instruction(&mut reader)?;
    }
    head.declared = reader.number_within(MOST_DECLARED)?;
    if !reader.rest.is_empty() {
        return Err(9);
    }
    Ok(head)
}

/// "per instruction a 16-byte name, operand count, operands (offset, length), proof flag (one byte, 0 or 1)"
fn read_instruction(reader: &mut Reader) -> Result<Instruction, u64> {
    let mut instruction = Instruction::default();
    instruction.name = reader.array()?;
    instruction.operand_count = reader.number_within(MOST_OPERANDS)?;
    for i in 0..instruction.operand_count as usize {
        let offset = reader.number()?;
        let length = reader.number()?;
        instruction.operands[i] = Operand { offset, length };
    }
    let [flag] = reader.array::<1>()?;
    if flag > 1 {
        return Err(9);
    }
    instruction.proof = flag == 1;
    Ok(instruction)
}

/// "head ... within limits"
pub fn within_limits(head: &Head) -> bool {
    head.count <= MOST_INSTRUCTIONS
        && head.declared <= MOST_DECLARED
        && head.instructions[..head.count as usize].iter().all(|i| i.operand_count <= MOST_OPERANDS)
}

/// The head's bytes, for a head within limits.
pub fn encoded(head: &Head) -> Vec<u8> {
    let mut bytes = head.contract.to_vec();
    bytes.extend(head.count.to_le_bytes());
    for instruction in &head.instructions[..head.count as usize] {
        bytes.extend(instruction.name);
        bytes.extend(instruction.operand_count.to_le_bytes());
        for operand in &instruction.operands[..instruction.operand_count as usize] {
            bytes.extend(operand.offset.to_le_bytes());
            bytes.extend(operand.length.to_le_bytes());
        }
        bytes.push(instruction.proof as u8);
    }
    bytes.extend(head.declared.to_le_bytes());
    bytes
}

/// "The writer makes these bytes from any head within limits, else answers 10; after that, 2 for an area that is too short. Bytes
/// behind the head stay." Answers the number and the length (0 on a refusal, decision 28).
pub fn write(head: &Head, area: &mut [u8]) -> (u64, u64) {
    if !within_limits(head) {
        return (10, 0);
    }
    let bytes = encoded(head);
    if area.len() < bytes.len() {
        return (2, 0);
    }
    area[..bytes.len()].copy_from_slice(&bytes);
    (0, bytes.len() as u64)
}
