// Generated from crates/trac_image/src/tests.rt by hosts/rust/generate, and never edited.
//! Images that were worked by hand; the sums are those of Python's `zlib.adler32`.
use crate::trac_image::checksum::checksum_of;
use crate::trac_image::{load, save};
use crate::{Cell, Machine, Refused};

/// The form `F` with the body `a`, gap 1, `b` and the pointer 2, and the meta character `;`.
const WORKED: [u8; 41] = [
    84, 82, 65, 67, 1, 59, 1, 0, 0, 0, 1, 0, 0, 0, 3, 0, 0, 0, 2, 0, 0, 0, 2, 0, 0, 0, 70, 97, 98,
    1, 0, 0, 0, 1, 0, 0, 0, 123, 2, 40, 60,
];

/// No form, and the apostrophe.
const EMPTY: &[u8] = &[84, 82, 65, 67, 1, 39, 0, 0, 0, 0, 83, 1, 218, 10];

/// Makes the machine whose image was worked, over a new block.
fn worked<'a>(block: &'a mut [Cell; 20]) -> Machine<'a> {
    let mut machine = Machine::over(block, 1000);
    assert!(machine.define(b"F", &[97, 256, 98], 2).is_ok());
    machine.set_meta(b';');
    machine
}

#[test]
fn image_of_a_form() {
    let mut block = [Cell::Byte(0); 20];
    let machine = worked(&mut block);
    let mut room = [7; 50];
    assert_eq!(save(&machine, &mut room), 41);
    assert!(room.starts_with(&WORKED));
    assert!(room.ends_with(&[7; 9]));
}

#[test]
fn image_of_nothing() {
    let mut block = [Cell::Byte(0); 0];
    let machine = Machine::over(&mut block, 1);
    let mut room = [7; 14];
    assert_eq!(save(&machine, &mut room), 14);
    assert!(room.as_slice() == EMPTY);
}

#[test]
fn image_that_does_not_fit() {
    let mut block = [Cell::Byte(0); 20];
    let machine = worked(&mut block);
    let mut room = [7; 30];
    assert_eq!(save(&machine, &mut room), 41);
    assert!(WORKED.starts_with(&room));
    assert_eq!(save(&machine, &mut []), 41);
}

/// The worked image with another byte at a place.
fn altered(place: usize, byte: u8) -> [u8; 41] {
    let mut image = WORKED;
    if let Some(at) = image.get_mut(place) {
        *at = byte;
    }
    image
}

/// The worked image with another byte at a place, and the sums of what it holds then.
fn changed(place: usize, byte: u8) -> [u8; 41] {
    let mut image = altered(place, byte);
    let sums = checksum_of(&image[..37]);
    image[37] = (sums.low % 256) as u8;
    image[38] = (sums.low / 256 % 256) as u8;
    image[39] = (sums.high % 256) as u8;
    image[40] = (sums.high / 256 % 256) as u8;
    image
}

/// Whether a machine with a form of its own refuses bytes, and has that form and nothing else then.
fn is_refused(image: &[u8]) -> bool {
    let mut block = [Cell::Byte(0); 20];
    let mut machine = Machine::over(&mut block, 1000);
    let defined = machine.define_text(b"own", b"text").is_ok();
    let mut before = [0; 40];
    let len = save(&machine, &mut before);
    let refused = load(&mut machine, image) == Err(Refused);
    let mut after = [0; 40];
    defined && refused && save(&machine, &mut after) == len && before == after
}

#[test]
fn image_that_is_taken() {
    let mut block = [Cell::Byte(0); 7];
    let mut machine = Machine::over(&mut block, 1000);
    assert!(machine.define_text(b"G", b"xyz").is_ok());
    assert_eq!(load(&mut machine, &WORKED), Ok(()));
    assert_eq!(machine.meta(), b';');
    assert_eq!(machine.size(), 7);
    let mut room = [0; 41];
    assert_eq!(save(&machine, &mut room), 41);
    assert!(room == WORKED);
    assert_eq!(load(&mut machine, EMPTY), Ok(()));
    assert_eq!(machine.size(), 0);
    assert_eq!(machine.meta(), b'\'');
}

#[test]
fn images_that_are_refused() {
    // One cell too few, and no bytes.
    let mut block = [Cell::Byte(0); 6];
    let mut machine = Machine::over(&mut block, 1000);
    assert_eq!(load(&mut machine, &WORKED), Err(Refused));
    assert!(is_refused(&[]));
    for len in 0..WORKED.len() {
        assert!(is_refused(&WORKED[..len]));
    }
    // Each changed image is refused; the worked one is taken.
    assert!(!is_refused(&changed(5, b';')));
    // Another name, another version, one form fewer, and one more than there are.
    assert!(is_refused(&changed(0, b't')));
    assert!(is_refused(&changed(4, 2)));
    assert!(is_refused(&changed(6, 0)));
    assert!(is_refused(&changed(6, 2)));
    assert!(is_refused(&changed(9, 255)));
    // A name, a body and characters of other lengths, and a pointer past the body.
    assert!(is_refused(&changed(10, 2)));
    assert!(is_refused(&changed(14, 4)));
    assert!(is_refused(&changed(18, 3)));
    assert!(is_refused(&changed(22, 4)));
    // A gap behind more characters than there are, and the ordinals 0 and 16,777,217.
    assert!(is_refused(&changed(29, 3)));
    assert!(is_refused(&changed(33, 0)));
    assert!(is_refused(&changed(36, 1)));
}

#[test]
fn images_that_are_another() {
    // The pointer at the end, a gap at the front, at the end, and with another ordinal.
    assert!(!is_refused(&changed(22, 3)));
    assert!(!is_refused(&changed(29, 0)));
    assert!(!is_refused(&changed(29, 2)));
    assert!(!is_refused(&changed(33, 2)));
}
