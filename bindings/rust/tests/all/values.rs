//! Values set, got, listed and deleted, and their conversions.

use crate::{new_hive, poor, refused};
use zugmeled::{Error, Kind, Status, Value};

#[test]
fn a_value_is_set_got_and_deleted() {
    let hive = new_hive();
    let root = hive.root().unwrap();
    root.set("number", 7_u32).unwrap();
    root.set("large", 1_u64 << 40).unwrap();
    root.set("text", "\u{e4}\u{1f600}").unwrap();
    root.set("texts", ["a", "b"]).unwrap();
    root.set("bytes", &b"bytes"[..]).unwrap();
    root.set("", "default").unwrap();
    assert_eq!(root.get::<u32>("NUMBER").unwrap(), Some(7));
    assert_eq!(root.get::<u64>("large").unwrap(), Some(1 << 40));
    assert_eq!(
        root.get::<String>("text").unwrap().unwrap(),
        "\u{e4}\u{1f600}"
    );
    assert_eq!(
        root.get::<Vec<String>>("texts").unwrap().unwrap(),
        ["a", "b"]
    );
    assert_eq!(root.get::<Vec<u8>>("bytes").unwrap().unwrap(), b"bytes");
    assert_eq!(root.get::<String>("").unwrap().unwrap(), "default");
    root.delete_value("number").unwrap();
    assert_eq!(root.get::<u32>("number").unwrap(), None);
}

#[test]
fn a_value_has_any_type_and_data_as_they_are() {
    let hive = new_hive();
    let root = hive.root().unwrap();
    for size in [0, 1, 1023, 1024, 1025, 1 << 20] {
        let value = Value::new(Kind(u32::MAX), vec![7; size]);
        root.set("v", value.clone()).unwrap();
        assert_eq!(root.value("v").unwrap(), value);
        assert_eq!(root.value_size("v").unwrap(), (Kind(u32::MAX), size as u32));
    }
}

#[test]
fn what_isnt_there_or_may_not_be_is_refused() {
    let hive = new_hive();
    let root = hive.root().unwrap();
    assert_eq!(refused(root.value("v")), Status::FILE_NOT_FOUND);
    assert_eq!(refused(root.value_size("v")), Status::FILE_NOT_FOUND);
    assert_eq!(refused(root.delete_value("v")), Status::FILE_NOT_FOUND);
    for name in ["\u{e4}", "a\0b", &"n".repeat(16_384)] {
        assert_eq!(refused(root.set(name, 1_u32)), Status::INVALID_PARAMETER);
        assert_eq!(refused(root.get::<u32>(name)), Status::INVALID_PARAMETER);
        assert_eq!(refused(root.value(name)), Status::INVALID_PARAMETER);
        assert_eq!(refused(root.value_size(name)), Status::INVALID_PARAMETER);
        assert_eq!(refused(root.delete_value(name)), Status::INVALID_PARAMETER);
    }
    let long = vec![0; (1 << 20) + 1];
    assert_eq!(
        refused(root.set_bytes("v", Kind::BINARY, &long)),
        Status::INVALID_PARAMETER
    );
}

#[test]
fn a_key_without_rights_has_no_values() {
    let hive = new_hive();
    let root = hive.root().unwrap();
    root.set("v", 1_u32).unwrap();
    let poor = poor(&root);
    assert_eq!(refused(poor.set("v", 2_u32)), Status::ACCESS_DENIED);
    assert_eq!(refused(poor.get::<u32>("v")), Status::ACCESS_DENIED);
    assert_eq!(refused(poor.value("v")), Status::ACCESS_DENIED);
    assert_eq!(refused(poor.value_size("v")), Status::ACCESS_DENIED);
    assert_eq!(refused(poor.delete_value("v")), Status::ACCESS_DENIED);
}

#[test]
fn values_come_as_their_names_were_added() {
    let hive = new_hive();
    let root = hive.root().unwrap();
    let long = "n".repeat(16_383);
    let given = [
        ("b", Value::from(1_u32)),
        ("", Value::from("")),
        (&long, Value::from(vec![1; 5000])),
        ("a", Value::new(Kind::NONE, [])),
        ("c", Value::from(vec![2; 1 << 20])),
    ];
    for (name, value) in &given {
        root.set(name, value.clone()).unwrap();
    }
    let found: Vec<(String, Value)> = root.values().collect::<Result<_, _>>().unwrap();
    assert_eq!(found, given.map(|(name, value)| (name.to_string(), value)));
}

#[test]
fn data_of_another_type_is_refused() {
    let hive = new_hive();
    let root = hive.root().unwrap();
    root.set("v", "text").unwrap();
    assert_eq!(refused(root.get::<u32>("v")), Status::INVALID_DATA);
    assert_eq!(refused(root.get::<u64>("v")), Status::INVALID_DATA);
    assert_eq!(refused(root.get::<Vec<String>>("v")), Status::INVALID_DATA);
    assert_eq!(refused(root.get::<Vec<u8>>("v")), Status::INVALID_DATA);
    root.set("v", 1_u32).unwrap();
    assert_eq!(refused(root.get::<String>("v")), Status::INVALID_DATA);
}

#[test]
fn numbers_are_converted() {
    let value = Value::from(0x0102_0304_u32);
    assert_eq!(value, Value::new(Kind::DWORD, [4, 3, 2, 1]));
    assert_eq!(read::<u32>(&value), Ok(0x0102_0304));
    assert_eq!(read::<u64>(&value), Ok(0x0102_0304));
    let value = Value::new(Kind::DWORD_BIG_ENDIAN, [1, 2, 3, 4]);
    assert_eq!(read::<u32>(&value), Ok(0x0102_0304));
    let value = Value::from(u64::MAX - 1);
    assert_eq!(value.kind, Kind::QWORD);
    assert_eq!(read::<u64>(&value), Ok(u64::MAX - 1));
    assert_eq!(read::<u32>(&value), Err(Status::INVALID_DATA));
    for size in [0, 3, 5, 7, 9] {
        let bytes = vec![1; size];
        assert_eq!(
            read::<u32>(&Value::new(Kind::DWORD, &bytes[..])),
            Err(Status::INVALID_DATA)
        );
        assert_eq!(
            read::<u64>(&Value::new(Kind::QWORD, &bytes[..])),
            Err(Status::INVALID_DATA)
        );
    }
}

#[test]
fn texts_are_utf_16() {
    let value = Value::from("a\u{1f600}");
    assert_eq!(value, Value::new(Kind::SZ, b"a\0\x3d\xd8\x00\xde\0\0"));
    assert_eq!(read(&value), Ok("a\u{1f600}".to_string()));
    assert_eq!(Value::text(Kind::EXPAND_SZ, "").bytes, [0, 0]);
    assert_eq!(
        read::<String>(&Value::text(Kind::EXPAND_SZ, "%A%")),
        Ok("%A%".to_string())
    );
}

#[test]
fn a_text_ends_at_its_first_zero_or_with_its_data() {
    for bytes in [&b"a\0"[..], b"a\0\0\0", b"a\0\0\0b\0", b"a\0b"] {
        let value = Value::new(Kind::SZ, bytes);
        assert_eq!(read(&value), Ok("a".to_string()), "{bytes:?}");
    }
    assert_eq!(read(&Value::new(Kind::SZ, [])), Ok(String::new()));
    assert_eq!(
        read(&Value::new(Kind::LINK, b"a\0b\0")),
        Ok("ab".to_string())
    );
}

#[test]
fn half_a_character_is_no_text() {
    assert_eq!(
        read::<String>(&Value::new(Kind::SZ, [0, 0xD8])),
        Err(Status::INVALID_DATA)
    );
    let texts = Value::new(Kind::MULTI_SZ, [0, 0xD8]);
    assert_eq!(read::<Vec<String>>(&texts), Err(Status::INVALID_DATA));
}

#[test]
fn lists_of_texts_are_converted() {
    let value = Value::from(["a", "bc"]);
    assert_eq!(value, Value::new(Kind::MULTI_SZ, b"a\0\0\0b\0c\0\0\0\0\0"));
    for texts in [
        &[][..],
        &["a"],
        &["a", "b"],
        &["", "a", "", "b"],
        &["a", ""],
    ] {
        let owned: Vec<String> = texts.iter().map(|text| text.to_string()).collect();
        assert_eq!(read(&Value::from(texts)), Ok(owned.clone()), "{texts:?}");
        assert_eq!(Value::from(&owned[..]), Value::from(texts));
    }
    for bytes in [
        &b"a\0\0\0b\0"[..],
        b"a\0\0\0b\0\0\0",
        b"a\0\0\0b\0\0\0\0\0",
        b"a\0\0\0b\0c",
    ] {
        let value = Value::new(Kind::MULTI_SZ, bytes);
        assert_eq!(
            read(&value),
            Ok(vec!["a".to_string(), "b".to_string()]),
            "{bytes:?}"
        );
    }
    assert_eq!(
        read(&Value::new(Kind::MULTI_SZ, [])),
        Ok(Vec::<String>::new())
    );
}

#[test]
fn bytes_are_converted() {
    let value = Value::from(vec![1, 2]);
    assert_eq!(value, Value::new(Kind::BINARY, [1, 2]));
    assert_eq!(value, Value::from(&[1, 2][..]));
    assert_eq!(read(&value), Ok(vec![1_u8, 2]));
    assert_eq!(read(&Value::default()), Ok(Vec::<u8>::new()));
}

#[test]
fn a_type_is_shown_by_its_name() {
    assert_eq!(Kind::SZ.to_string(), "REG_SZ");
    assert_eq!(Kind::QWORD.to_string(), "REG_QWORD");
    assert_eq!(Kind(12).to_string(), "12");
    assert_eq!(format!("{:>9}", Kind::NONE), " REG_NONE");
}

fn read<T>(value: &Value) -> Result<T, Status>
where
    T: for<'value> TryFrom<&'value Value, Error = Error>,
{
    T::try_from(value).map_err(|error| error.status())
}
