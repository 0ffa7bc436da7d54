//! Cursors over images, compared with images that sketches write.
use datasketches_rattle::bloom::BloomFilterBuilder;
use datasketches_rattle::codec::family::Family;
use datasketches_rattle::codec::{SketchBytes, SketchSlice};
use datasketches_rattle::countmin::CountMinSketch;
use datasketches_rattle::frequencies::FrequentItemsSketch;

#[test]
fn written_and_read() {
    let mut bytes = SketchBytes::with_capacity(3);
    bytes.write_u8(1);
    bytes.write_u16_le(770);
    bytes.write_i32_le(-2);
    bytes.write_u64_le(1 << 63);
    bytes.write_i64_le(-1);
    bytes.write(b"ab");
    let image = bytes.into_bytes();
    assert_eq!(image, b"\x01\x02\x03\xfe\xff\xff\xff\0\0\0\0\0\0\0\x80\xff\xff\xff\xff\xff\xff\xff\xffab");
    let mut cursor = SketchSlice::new(&image);
    assert_eq!((cursor.read_u8().unwrap(), cursor.read_u16_le().unwrap()), (1, 770));
    assert_eq!(cursor.read_i32_le().unwrap(), -2);
    assert_eq!((cursor.read_u64_le().unwrap(), cursor.read_i64_le().unwrap()), (1 << 63, -1));
    let error = cursor.read_u32_le().unwrap_err();
    assert_eq!((error.name(), cursor.remaining()), ("InsufficientData", &b"ab"[..]));
    cursor.advance(1);
    let mut two = [7; 2];
    assert!(cursor.read_exact(&mut two).is_err());
    assert_eq!((two, cursor.remaining()), ([7; 2], &b"b"[..]));
}

#[test]
fn families_of_images() {
    let filter = BloomFilterBuilder::with_size(64, 1).build().unwrap();
    let counts = CountMinSketch::<u64>::new(1, 3).unwrap();
    let heavy = FrequentItemsSketch::<String>::new(8).unwrap();
    let images = [filter.serialize(), counts.serialize(), heavy.serialize()];
    let families = [Family::BLOOMFILTER, Family::COUNTMIN, Family::FREQUENCY];
    for (image, family) in images.iter().zip(families) {
        let mut cursor = SketchSlice::new(image);
        let longs = cursor.read_u8().unwrap() & 63;
        assert!(family.min_pre_longs <= longs && longs <= family.max_pre_longs);
        cursor.advance(1);
        family.validate_id(cursor.read_u8().unwrap()).unwrap();
    }
    assert_eq!(Family::COUNTMIN.validate_id(Family::FREQUENCY.id).unwrap_err().name(), "BadFamily");
}
