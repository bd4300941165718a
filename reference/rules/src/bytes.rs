//! Big-endian numbers out of and into bytes.

/// Reads fields one after the other. The caller has made sure that the bytes suffice.
pub struct Reader<'a> {
    bytes: &'a [u8],
    place: usize,
}

impl<'a> Reader<'a> {
    pub fn new(bytes: &'a [u8]) -> Reader<'a> {
        Reader { bytes, place: 0 }
    }

    pub fn take(&mut self, count: usize) -> &'a [u8] {
        let part = &self.bytes[self.place..self.place + count];
        self.place += count;
        part
    }

    pub fn rest(&mut self) -> &'a [u8] {
        self.take(self.bytes.len() - self.place)
    }

    pub fn u8(&mut self) -> u8 {
        self.take(1)[0]
    }

    pub fn u16(&mut self) -> u16 {
        let part = self.take(2);
        (part[0] as u16) << 8 | part[1] as u16
    }

    pub fn u32(&mut self) -> u32 {
        self.take(4).iter().fold(0, |number, byte| number << 8 | *byte as u32)
    }

    pub fn u64(&mut self) -> u64 {
        self.take(8).iter().fold(0, |number, byte| number << 8 | *byte as u64)
    }

    /// Two's complement.
    pub fn i64(&mut self) -> i64 {
        self.u64() as i64
    }

    pub fn bytes<const N: usize>(&mut self) -> [u8; N] {
        let mut out = [0; N];
        out.copy_from_slice(self.take(N));
        out
    }

    pub fn u32s<const N: usize>(&mut self) -> [u32; N] {
        let mut out = [0; N];
        for entry in out.iter_mut() {
            *entry = self.u32();
        }
        out
    }

    pub fn u64s<const N: usize>(&mut self) -> [u64; N] {
        let mut out = [0; N];
        for entry in out.iter_mut() {
            *entry = self.u64();
        }
        out
    }

    pub fn i64s<const N: usize>(&mut self) -> [i64; N] {
        let mut out = [0; N];
        for entry in out.iter_mut() {
            *entry = self.i64();
        }
        out
    }
}

/// Appends fields one after the other.
#[derive(Default)]
pub struct Writer {
    pub bytes: Vec<u8>,
}

impl Writer {
    pub fn new() -> Writer {
        Writer::default()
    }

    pub fn u8(&mut self, number: u8) -> &mut Writer {
        self.bytes.push(number);
        self
    }

    pub fn u16(&mut self, number: u16) -> &mut Writer {
        self.bytes.extend_from_slice(&number.to_be_bytes());
        self
    }

    pub fn u32(&mut self, number: u32) -> &mut Writer {
        self.bytes.extend_from_slice(&number.to_be_bytes());
        self
    }

    pub fn u64(&mut self, number: u64) -> &mut Writer {
        self.bytes.extend_from_slice(&number.to_be_bytes());
        self
    }

    pub fn i64(&mut self, number: i64) -> &mut Writer {
        self.bytes.extend_from_slice(&number.to_be_bytes());
        self
    }

    pub fn put(&mut self, bytes: &[u8]) -> &mut Writer {
        self.bytes.extend_from_slice(bytes);
        self
    }
}
