//! What a `Hash` feeds, as an item of the library.
//!
//! The first pass over an item finds the form of what it feeds, and copies nothing. A number of up to 8 bytes
//! is then known, and a string is passed as it lies, in a second pass. Other items are copied in a second
//! pass: to the stack, or to the heap if long. An item of the published crate is hashed at least twice as
//! well.

use crate::error::Error;
use crate::sys;
use std::hash::{Hash, Hasher};

/// The number of fed bytes that are copied to the stack.
const SHORT: usize = 128;

/// An item in the form in which the library takes it.
#[derive(Clone, Copy)]
pub enum Item<'a> {
    /// Eight bytes, the lowest first.
    Number(u64),
    /// A string. It feeds its bytes and then 0xff.
    Text(&'a [u8]),
    /// All that a `Hash` feeds.
    Fed(&'a [u8]),
}

/// The form of what was fed.
enum Form {
    Nothing,
    /// A number of so many bytes.
    Number(u64, usize),
    /// Bytes in one piece.
    Piece,
    /// Bytes in one piece and then 0xff, as a string.
    Text,
    /// Anything else.
    Other,
}

/// Finds the form and the number of all bytes.
struct Probe {
    form: Form,
    length: usize,
}

impl Probe {
    #[inline]
    fn number(&mut self, number: u64, bytes: usize) {
        self.form = match self.form {
            Form::Nothing => Form::Number(number, bytes),
            Form::Piece if bytes == 1 && number == 0xff => Form::Text,
            _ => Form::Other,
        };
        self.length = self.length.saturating_add(bytes);
    }
}

impl Hasher for Probe {
    #[inline]
    fn write(&mut self, bytes: &[u8]) {
        self.form = match self.form {
            Form::Nothing => Form::Piece,
            _ => Form::Other,
        };
        self.length = self.length.saturating_add(bytes.len());
    }

    #[inline]
    fn write_u8(&mut self, number: u8) {
        self.number(number.into(), 1);
    }

    #[inline]
    fn write_u16(&mut self, number: u16) {
        self.number(number.into(), 2);
    }

    #[inline]
    fn write_u32(&mut self, number: u32) {
        self.number(number.into(), 4);
    }

    #[inline]
    fn write_u64(&mut self, number: u64) {
        self.number(number, 8);
    }

    #[inline]
    fn write_usize(&mut self, number: usize) {
        self.number(number as u64, 8);
    }

    fn finish(&self) -> u64 {
        0
    }
}

/// Makes the call on the first piece that is fed.
struct Direct<'a, F, R> {
    call: &'a mut F,
    result: Option<Result<R, Error>>,
}

impl<F: FnMut(Item<'_>) -> Result<R, Error>, R> Hasher for Direct<'_, F, R> {
    #[inline]
    fn write(&mut self, bytes: &[u8]) {
        if self.result.is_none() {
            self.result = Some((self.call)(Item::Text(bytes)));
        }
    }

    #[inline]
    fn write_u8(&mut self, _: u8) {}

    fn finish(&self) -> u64 {
        0
    }
}

/// Copies what is fed.
struct Buffer {
    short: [u8; SHORT],
    length: usize,
    long: Vec<u8>,
    failed: bool,
}

impl Buffer {
    /// Returns room for so many bytes.
    fn new(length: usize) -> Result<Self, Error> {
        let mut long = Vec::new();
        if length > SHORT {
            long.try_reserve_exact(length).map_err(Error::no_memory)?;
        }
        Ok(Buffer { short: [0; SHORT], length: 0, long, failed: false })
    }

    fn bytes(&self) -> &[u8] {
        if self.long.is_empty() {
            &self.short[..self.length]
        } else {
            &self.long
        }
    }

    #[inline(never)]
    fn spill(&mut self, bytes: &[u8]) {
        let length = self.length;
        self.failed |= self.long.try_reserve(length + bytes.len()).is_err();
        if !self.failed {
            self.long.extend_from_slice(&self.short[..length]);
            self.long.extend_from_slice(bytes);
            self.length = 0;
        }
    }
}

impl Hasher for Buffer {
    #[inline]
    fn write(&mut self, bytes: &[u8]) {
        if self.long.is_empty() && bytes.len() <= SHORT - self.length {
            self.short[self.length..self.length + bytes.len()].copy_from_slice(bytes);
            self.length += bytes.len();
        } else {
            self.spill(bytes);
        }
    }

    fn finish(&self) -> u64 {
        0
    }
}

/// Makes a call on an item. It returns an error of memory if a long item has no room.
#[inline]
pub(crate) fn with_item<T, F, R>(item: &T, mut call: F) -> Result<R, Error>
where
    T: Hash + ?Sized,
    F: FnMut(Item<'_>) -> Result<R, Error>,
{
    let mut probe = Probe { form: Form::Nothing, length: 0 };
    item.hash(&mut probe);
    match probe.form {
        Form::Number(number, 8) => return call(Item::Number(number)),
        Form::Number(number, bytes) => return call(Item::Fed(&number.to_le_bytes()[..bytes])),
        Form::Text => {
            let mut direct = Direct { call: &mut call, result: None };
            item.hash(&mut direct);
            match direct.result {
                Some(Err(error)) if error.code() == sys::DS_INVALID_UTF8 => (), // no string, which ends in 0xff
                Some(result) => return result,
                None => (),
            }
        }
        Form::Nothing | Form::Piece | Form::Other => (),
    }
    with_copy(item, probe.length, call)
}

#[inline(never)]
fn with_copy<T, F, R>(item: &T, length: usize, mut call: F) -> Result<R, Error>
where
    T: Hash + ?Sized,
    F: FnMut(Item<'_>) -> Result<R, Error>,
{
    let mut buffer = Buffer::new(length)?;
    item.hash(&mut buffer);
    if buffer.failed {
        return Err(Error::no_memory(()));
    }
    match *buffer.bytes() {
        [a, b, c, d, e, f, g, h] => call(Item::Number(u64::from_le_bytes([a, b, c, d, e, f, g, h]))),
        ref bytes => call(Item::Fed(bytes)),
    }
}

#[cfg(test)]
mod tests {
    use super::{with_item, Item, SHORT};
    use crate::error::Error;
    use std::collections::BTreeMap;
    use std::hash::{Hash, Hasher};

    /// Keeps all that is fed.
    struct Recorder(Vec<u8>);

    impl Hasher for Recorder {
        fn write(&mut self, bytes: &[u8]) {
            self.0.extend_from_slice(bytes);
        }

        fn finish(&self) -> u64 {
            0
        }
    }

    /// Returns the bytes that an item of the library is hashed by, and its form.
    fn bytes_of(item: Item<'_>) -> (Vec<u8>, char) {
        match item {
            Item::Number(number) => (number.to_le_bytes().to_vec(), 'n'),
            Item::Text(text) => ([text, &[0xff]].concat(), 't'),
            Item::Fed(bytes) => (bytes.to_vec(), 'f'),
        }
    }

    /// Checks that the item has the bytes that are fed, and its form.
    fn check<T: Hash + ?Sized>(item: &T, form: char) {
        let mut recorder = Recorder(vec![]);
        item.hash(&mut recorder);
        let found = with_item(item, |item| Ok(bytes_of(item))).unwrap();
        assert_eq!(found, (recorder.0, form));
    }

    #[test]
    fn items_are_what_is_fed() {
        check(&7u64, 'n');
        check(&-7i64, 'n');
        check(&7usize, 'n');
        check(&(1u32, 2u32), 'n');
        check(&[1u8, 2, 3, 4, 5, 6, 7, 8], 'f'); // with its length
        check("seven b", 't');
        check(&String::new(), 't');
        check(&"ü".repeat(1000), 't');
        check(&(7u8, 'x', true, -1i16, 2i32, 3u128), 'f');
        check(&7u8, 'f');
        check(&7u32, 'f');
        check(&'x', 'f');
        check(&("a", "b"), 'f');
        check(&("a", 0xffu8), 'f');
        check(&BTreeMap::from([(1, "a"), (2, "b")]), 'f');
        check(&(), 'f');
        check(&Vec::<u8>::new(), 'n'); // its length alone
        for length in [8, SHORT - 9, SHORT - 8, SHORT - 7, SHORT, 10 * SHORT] {
            check(&vec![7u8; length], 'f');
            check(&vec![7u64; length / 8], 'f');
        }
    }

    #[test]
    fn what_is_no_string_is_fed() {
        struct LikeText;
        impl Hash for LikeText {
            fn hash<H: Hasher>(&self, state: &mut H) {
                state.write(&[0xfe; 7]);
                state.write_u8(0xff);
            }
        }
        let call = |item: Item<'_>| match item {
            Item::Text(text) if std::str::from_utf8(text).is_err() => {
                Err(Error::of_argument(crate::sys::DS_INVALID_UTF8))
            }
            item => Ok(bytes_of(item)),
        };
        let expected = vec![0xfe, 0xfe, 0xfe, 0xfe, 0xfe, 0xfe, 0xfe, 0xff];
        assert_eq!(with_item(&LikeText, call).unwrap(), (expected, 'n'));
    }
}
