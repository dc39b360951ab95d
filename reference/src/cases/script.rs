//! Scripts: operations of an opcode and its arguments, integers least significant byte first.

/// A script as it is written.
#[derive(Clone, Debug, Default)]
pub struct Script {
    pub bytes: Vec<u8>,
}

impl Script {
    pub fn u8(&mut self, value: u8) -> &mut Script {
        self.bytes.push(value);
        self
    }

    pub fn u16(&mut self, value: u16) -> &mut Script {
        self.bytes.extend(value.to_le_bytes());
        self
    }

    pub fn u32(&mut self, value: u32) -> &mut Script {
        self.bytes.extend(value.to_le_bytes());
        self
    }

    pub fn u64(&mut self, value: u64) -> &mut Script {
        self.bytes.extend(value.to_le_bytes());
        self
    }

    pub fn text(&mut self, bytes: &[u8]) -> &mut Script {
        self.bytes.extend(bytes);
        self
    }
}

/// A script as it is carried out.
#[derive(Clone, Debug)]
pub struct Cursor<'a> {
    rest: &'a [u8],
}

impl<'a> Cursor<'a> {
    pub fn new(script: &'a [u8]) -> Cursor<'a> {
        Cursor { rest: script }
    }

    /// The next operation's opcode, or none at the script's end.
    pub fn opcode(&mut self) -> Option<u8> {
        (!self.rest.is_empty()).then(|| self.u8())
    }

    pub fn bytes(&mut self, count: usize) -> &'a [u8] {
        let (taken, rest) = self.rest.split_at(count);
        self.rest = rest;
        taken
    }

    fn array<const N: usize>(&mut self) -> [u8; N] {
        let mut array = [0; N];
        array.copy_from_slice(self.bytes(N));
        array
    }

    pub fn u8(&mut self) -> u8 {
        u8::from_le_bytes(self.array())
    }

    pub fn u16(&mut self) -> u16 {
        u16::from_le_bytes(self.array())
    }

    pub fn u32(&mut self) -> u32 {
        u32::from_le_bytes(self.array())
    }

    pub fn u64(&mut self) -> u64 {
        u64::from_le_bytes(self.array())
    }
}

/// The output as it is printed: lines of numbers with one space between them.
#[derive(Clone, Debug, Default)]
pub struct Output {
    pub bytes: Vec<u8>,
}

impl Output {
    pub fn line(&mut self, fields: &[u64]) {
        let fields: Vec<String> = fields.iter().map(u64::to_string).collect();
        self.bytes.extend(fields.join(" ").bytes());
        self.bytes.push(b'\n');
    }
}
