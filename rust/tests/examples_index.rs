//! The examples of the index's documentation comments, as tests; examples.rs sees that each stands here.

#[test]
fn numbers_index_write() {
    let mut out = [0; 22];
    let length = castanwel::numbers::index_write(&[2, 300, 82, 10, 382, 18], &mut out).unwrap();
    assert_eq!(out[..length], [2, 0xAC, 0x02, 82, 8, 0, 18]);
    assert_eq!(castanwel::numbers::index_write(&[10, 382, 18, 2, 400, 82], &mut out).unwrap_err().number, 5);
}

#[test]
fn numbers_index_read() {
    let mut entries = [0; 7];
    assert_eq!(castanwel::numbers::index_read(&[2, 0xAC, 0x02, 82, 8, 0, 18], &mut entries), Ok(2));
    assert_eq!(entries, [2, 300, 82, 10, 382, 18, 0]);
    assert_eq!(castanwel::numbers::index_read(&[0x80, 0x00], &mut entries).unwrap_err().number, 11);
}

#[test]
fn numbers_index_add() {
    let mut index = [2, 0xAC, 0x02, 82, 0, 0, 0];
    assert_eq!(castanwel::numbers::index_add(&mut index, 4, 10, 382, 18), Ok(7));
    assert_eq!(index, [2, 0xAC, 0x02, 82, 8, 0, 18]);
    assert_eq!(castanwel::numbers::index_add(&mut index, 7, 10, 400, 18).unwrap_err().number, 5);
}

#[test]
fn numbers_index_find() {
    let index = [2, 0xAC, 0x02, 82, 8, 0, 18];
    assert_eq!(castanwel::numbers::index_find(&index, 10), Ok((382, 18)));
    assert_eq!(castanwel::numbers::index_find(&index, 3).unwrap_err().number, 12);
}

#[test]
fn index_new() {
    let index = castanwel::Index::new();
    assert!(index.bytes().is_empty() && index.entries().is_empty());
}

#[test]
fn index_from_bytes() {
    let index = castanwel::Index::from_bytes([2, 0xAC, 0x02, 82, 8, 0, 18]).unwrap();
    assert_eq!(index.entries()[1], castanwel::Exhibit { number: 10, offset: 382, length: 18 });
    assert_eq!(castanwel::Index::from_bytes([0x80, 0x00]).unwrap_err().number, 11);
}

#[test]
fn index_from_entries() {
    use castanwel::{Exhibit, Index};
    let two = Exhibit { number: 2, offset: 300, length: 82 };
    let ten = Exhibit { number: 10, offset: 382, length: 18 };
    assert_eq!(Index::from_entries(&[two, ten]).unwrap().bytes(), [2, 0xAC, 0x02, 82, 8, 0, 18]);
    assert_eq!(Index::from_entries(&[ten, two]).unwrap_err().number, 5);
}

#[test]
fn index_bytes() {
    let index = castanwel::Index::from_bytes([2, 0, 18]).unwrap();
    assert_eq!(index.bytes(), [2, 0, 18]);
}

#[test]
fn index_entries() {
    let index = castanwel::Index::from_bytes([2, 0, 18, 8, 0, 18]).unwrap();
    let numbers: Vec<u64> = index.entries().iter().map(|exhibit| exhibit.number).collect();
    assert_eq!(numbers, [2, 10]);
}

#[test]
fn index_add() {
    use castanwel::{Exhibit, Index};
    let mut index = Index::from_bytes([2, 0xAC, 0x02, 82]).unwrap();
    assert_eq!(index.add(Exhibit { number: 10, offset: 382, length: 18 }), Ok(()));
    assert_eq!(index.bytes(), [2, 0xAC, 0x02, 82, 8, 0, 18]);
    assert_eq!(index.add(Exhibit { number: 3, offset: 400, length: 18 }).unwrap_err().number, 5);
}

#[test]
fn index_find() {
    let index = castanwel::Index::from_bytes([2, 0xAC, 0x02, 82, 8, 0, 18]).unwrap();
    assert_eq!(index.find(2), Ok(castanwel::Exhibit { number: 2, offset: 300, length: 82 }));
    assert_eq!(index.find(3).unwrap_err().to_string(), "refusal 12: no exhibit has that number");
}

#[test]
fn index_line() {
    let index = castanwel::Index::from_bytes([2, 5, 18]).unwrap();
    let log = std::io::Cursor::new(b"noise$GPGSV,1,1,00*79\r\n");
    assert_eq!(index.line(log, 2).unwrap(), b"$GPGSV,1,1,00*79\r\n");
    let other = std::io::Cursor::new(b"$GPGSV,1,1,00*79\r\n$GPGSV,1,1,00*79\r\n");
    assert!(matches!(index.line(other, 2), Err(castanwel::NoLine::OtherLog)));
}
