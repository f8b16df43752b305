//! Hives made and loaded, their images and their journals.

use crate::{new_hive, refused, MOMENT};
use std::io::{self, BufWriter, Write};
use std::mem;
use zugmeled::{
    library_version, Clock, Entries, Fault, Hive, Moment, Rights, Status, EMPTY_SECURITY,
};

#[test]
fn the_library_is_the_one_that_is_declared() {
    assert_eq!(library_version(), 10_000);
}

#[test]
fn a_new_hive_has_its_root() {
    let hive = Hive::new("Name", b"descriptor").unwrap();
    let root = hive.root().unwrap();
    let info = root.info().unwrap();
    assert_eq!((info.subkeys, info.values, info.security), (0, 0, 10));
    assert!(info.time > MOMENT && info.time <= Moment::now());
    assert_eq!(root.security().unwrap(), b"descriptor");
    assert_eq!(hive.path(), None);
    assert_eq!(format!("{hive:?}"), "Hive { path: None, .. }");
    assert_eq!(format!("{root:?}"), "Key { session: 0, handle: 0, .. }");
}

#[test]
fn a_hive_that_may_not_be_is_refused() {
    for name in ["", "a\\b", "\u{e4}", &"n".repeat(256)] {
        assert_eq!(
            refused(Hive::new(name, &EMPTY_SECURITY)),
            Status::INVALID_PARAMETER
        );
    }
    for security in [&[][..], &[1; 65_536]] {
        assert_eq!(
            refused(Hive::new("ROOT", security)),
            Status::INVALID_PARAMETER
        );
    }
}

#[test]
fn the_clock_tells_each_call_its_moment() {
    let hive = new_hive();
    let root = hive.root().unwrap();
    assert_eq!(root.info().unwrap().time, MOMENT);
    hive.set_clock(Clock::At(Moment(7)));
    root.set("v", 1_u32).unwrap();
    assert_eq!(root.info().unwrap().time, Moment(7));
    hive.set_clock(Clock::System);
    let before = Moment::now();
    root.set("v", 1_u32).unwrap();
    let written = root.info().unwrap().time;
    assert!(before <= written && written <= Moment::now());
}

#[test]
fn an_image_is_loaded_again() {
    let hive = new_hive();
    hive.root()
        .unwrap()
        .create("Soft\\Zug")
        .unwrap()
        .set("Version", 4_u32)
        .unwrap();
    let image = hive.image().unwrap();
    assert_eq!(sequence(&image), 1);
    assert_eq!(image, hive.image().unwrap());
    let loaded = Hive::load(&image).unwrap();
    loaded.set_clock(Clock::At(MOMENT));
    let key = loaded.root().unwrap().open("soft\\zug").unwrap();
    assert_eq!(key.get::<u32>("version").unwrap(), Some(4));
    assert_eq!(sequence(&loaded.image().unwrap()), 2);
}

#[test]
fn bytes_behind_the_bins_are_passed_over() {
    let mut image = new_hive().image().unwrap();
    image.extend([9; 100]);
    assert!(Hive::load(&image).is_ok());
}

#[test]
fn the_sequence_begins_anew_behind_the_last_number() {
    let mut image = new_hive().image().unwrap();
    // The checksum is a sum without carries: what both numbers change is no change.
    for at in [4, 8] {
        image[at..at + 4].copy_from_slice(&u32::MAX.to_le_bytes());
    }
    let loaded = Hive::load(&image).unwrap();
    assert_eq!(sequence(&loaded.image().unwrap()), 0);
}

fn sequence(image: &[u8]) -> u32 {
    u32::from_le_bytes(image[4..8].try_into().unwrap())
}

#[test]
fn a_long_image_is_written_in_parts() {
    let hive = new_hive();
    let root = hive.root().unwrap();
    for number in 0..3 {
        root.set(&number.to_string(), &[number; 1 << 20][..])
            .unwrap();
    }
    let mut written = Vec::new();
    hive.write_image(&mut written).unwrap();
    assert!(written.len() > 3 << 20);
    assert_eq!(written, hive.image().unwrap());
}

#[test]
fn what_a_writer_says_is_the_error_of_its_image() {
    struct Full;
    impl Write for Full {
        fn write(&mut self, _: &[u8]) -> io::Result<usize> {
            Err(io::ErrorKind::StorageFull.into())
        }
        fn flush(&mut self) -> io::Result<()> {
            Ok(())
        }
    }
    assert_eq!(refused(new_hive().write_image(Full)), Status::DISK_FULL);
}

#[test]
fn what_a_writer_holds_back_is_written_with_its_image() {
    struct Disk(usize);
    impl Write for Disk {
        fn write(&mut self, bytes: &[u8]) -> io::Result<usize> {
            if self.0 == 0 {
                return Err(io::ErrorKind::StorageFull.into());
            }
            let written = bytes.len().min(self.0);
            self.0 -= written;
            Ok(written)
        }
        fn flush(&mut self) -> io::Result<()> {
            Ok(())
        }
    }
    let hive = new_hive();
    let size = hive.image().unwrap().len();
    let over = |room| BufWriter::with_capacity(2 * size, Disk(room));
    assert!(hive.write_image(over(size)).is_ok());
    assert_eq!(refused(hive.write_image(over(size - 1))), Status::DISK_FULL);
}

#[test]
fn parts_of_two_states_are_no_image() {
    struct Changing<'hive>(&'hive Hive);
    impl Write for Changing<'_> {
        fn write(&mut self, bytes: &[u8]) -> io::Result<usize> {
            drop(self.0.root());
            Ok(bytes.len())
        }
        fn flush(&mut self) -> io::Result<()> {
            Ok(())
        }
    }
    let hive = new_hive();
    assert!(hive.write_image(Changing(&hive)).is_ok());
    hive.root().unwrap().set("v", &[1; 1 << 20][..]).unwrap();
    assert_eq!(
        refused(hive.write_image(Changing(&hive))),
        Status::INVALID_PARAMETER
    );
}

#[test]
fn bytes_that_are_no_image_have_a_fault() {
    let image = new_hive().image().unwrap();
    assert_eq!(fault(&[]), 2);
    assert_eq!(fault(&image[..image.len() - 1]), 2);
    assert_eq!(fault(&with(&image, 0, b'x')), 3);
    assert_eq!(fault(&with(&image, 20, 9)), 4);
    assert_eq!(fault(&with(&image, 508, image[508] ^ 1)), 5);
    assert_eq!(
        fault(&with(&with(&image, 8, image[8] ^ 1), 508, image[508] ^ 1)),
        6
    );
    assert_eq!(fault(&with(&image, 4096, b'x')), 7);
    assert_eq!(fault(&with(&image, 4096 + 32, 1)), 8);
    assert_eq!(fault(&with(&image, 4096 + 36, b'x')), 9);
}

#[test]
fn a_load_error_tells_its_fault_in_words() {
    let error = Hive::load(b"").unwrap_err();
    assert_eq!(
        error.to_string(),
        "it is no hive that is read (status 1017): fault 2, too short"
    );
}

fn fault(image: &[u8]) -> u8 {
    let error = Hive::load(image).unwrap_err();
    assert_eq!(error.status(), Status::NOT_REGISTRY_FILE);
    let Some(Fault(number)) = error.fault() else {
        panic!("the error has no fault")
    };
    number
}

fn with(image: &[u8], at: usize, byte: u8) -> Vec<u8> {
    let mut other = image.to_vec();
    other[at] = byte;
    other
}

#[test]
fn a_cut_frees_the_journal_and_its_numbers_go_on() {
    let mut hive = new_hive();
    hive.root().unwrap().set("v", 1_u32).unwrap();
    assert_eq!(hive.entries(), Entries { made: 3, kept: 3 });
    assert_eq!(hive.cut().unwrap(), 3);
    assert_eq!(hive.entries(), Entries { made: 3, kept: 0 });
    assert_eq!(hive.root().unwrap().get::<u32>("v").unwrap(), Some(1));
    assert_eq!(hive.entries(), Entries { made: 5, kept: 2 });
}

#[test]
fn a_key_that_was_forgotten_keeps_the_journal() {
    let mut hive = new_hive();
    mem::forget(hive.root().unwrap());
    assert_eq!(refused(hive.cut()), Status::BUSY);
}

#[test]
fn a_session_has_its_own_keys() {
    let hive = new_hive();
    for number in [0, 1, 63] {
        let session = hive.session(number).unwrap();
        let root = session.root(Rights::ALL).unwrap();
        root.set("v", u32::from(number)).unwrap();
        assert_eq!(
            hive.root().unwrap().get::<u32>("v").unwrap(),
            Some(u32::from(number))
        );
    }
    for number in [64, 255] {
        assert_eq!(refused(hive.session(number)), Status::INVALID_PARAMETER);
    }
}

#[test]
fn rights_that_there_arent_are_refused() {
    let session = new_hive();
    let session = session.session(0).unwrap();
    assert_eq!(
        refused(session.root(Rights(0x100))),
        Status::INVALID_PARAMETER
    );
    assert_eq!(
        refused(session.check_root(Rights(0x100))),
        Status::INVALID_PARAMETER
    );
    session.check_root(Rights::ALL).unwrap();
}
