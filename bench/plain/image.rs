//! The bytes of images, and the errors of readers.

use std::io::{Cursor, Read};

#[derive(Debug)]
pub enum Refusal {
    TooShort,
    Malformed,
    Mismatch,
    WeightOverflow,
}

impl From<std::io::Error> for Refusal {
    fn from(_: std::io::Error) -> Self {
        Refusal::TooShort
    }
}

/// A writer of an image.
pub struct Writer(Vec<u8>);

impl Writer {
    pub fn with_capacity(capacity: usize) -> Self {
        Writer(Vec::with_capacity(capacity))
    }

    pub fn bytes(&mut self, bytes: &[u8]) {
        self.0.extend_from_slice(bytes);
    }

    pub fn u8(&mut self, n: u8) {
        self.0.push(n);
    }

    pub fn u16(&mut self, n: u16) {
        self.bytes(&n.to_le_bytes());
    }

    pub fn u32(&mut self, n: u32) {
        self.bytes(&n.to_le_bytes());
    }

    pub fn u64(&mut self, n: u64) {
        self.bytes(&n.to_le_bytes());
    }

    pub fn into_bytes(self) -> Vec<u8> {
        self.0
    }
}

/// A reader of an image.
pub struct Reader<'a>(Cursor<&'a [u8]>);

impl<'a> Reader<'a> {
    pub fn new(image: &'a [u8]) -> Self {
        Reader(Cursor::new(image))
    }

    pub fn array<const N: usize>(&mut self) -> Result<[u8; N], Refusal> {
        let mut bytes = [0; N];
        self.0.read_exact(&mut bytes)?;
        Ok(bytes)
    }

    pub fn u8(&mut self) -> Result<u8, Refusal> {
        Ok(self.array::<1>()?[0])
    }

    pub fn u16(&mut self) -> Result<u16, Refusal> {
        Ok(u16::from_le_bytes(self.array()?))
    }

    pub fn u32(&mut self) -> Result<u32, Refusal> {
        Ok(u32::from_le_bytes(self.array()?))
    }

    pub fn u64(&mut self) -> Result<u64, Refusal> {
        Ok(u64::from_le_bytes(self.array()?))
    }

    /// Returns the bytes that are not read yet.
    pub fn rest(&self) -> &'a [u8] {
        let image: &'a [u8] = self.0.get_ref();
        &image[(self.0.position() as usize).min(image.len())..]
    }

    pub fn skip(&mut self, len: usize) {
        self.0.set_position(self.0.position() + len as u64);
    }

    /// Reads the first byte, the version and the family. Returns the first byte if the other two are as expected.
    pub fn kind(&mut self, family: u8) -> Result<u8, Refusal> {
        let (longs, version, stated) = (self.u8()?, self.u8()?, self.u8()?);
        if stated == family && version == 1 {
            Ok(longs)
        } else {
            Err(Refusal::Malformed)
        }
    }
}
