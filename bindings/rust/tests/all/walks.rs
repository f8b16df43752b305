//! Keys and values by their paths, without a handle.

use crate::{new_hive, refused, MOMENT};
use zugmeled::{
    Clock, Hive, Key, KeyRow, KeyWithValues, Kind, Moment, Result, Status, Step, Value,
};

/// How many items one call of the library tells at most.
const ROWS: usize = 256;

/// How many bytes the first room has.
const FIRST_ROOM: usize = 16 << 10;

fn row(name: &str, subkeys: u32, values: u32) -> KeyRow {
    KeyRow {
        name: name.to_string(),
        time: MOMENT,
        subkeys,
        values,
        marks: 0,
    }
}

fn subkeys(hive: &Hive, path: &str) -> Vec<KeyRow> {
    hive.subkeys(path).collect::<Result<_>>().unwrap()
}

fn values(hive: &Hive, path: &str) -> Vec<(String, Value)> {
    hive.values(path).collect::<Result<_>>().unwrap()
}

fn steps(hive: &Hive, path: &str) -> Vec<Step> {
    hive.walk(path).collect::<Result<_>>().unwrap()
}

fn names(rows: impl IntoIterator<Item = KeyRow>) -> Vec<String> {
    rows.into_iter().map(|row| row.name).collect()
}

fn paths(steps: impl IntoIterator<Item = Step>) -> Vec<String> {
    steps.into_iter().map(|step| step.path).collect()
}

/// A key's subkeys with their values, as [`Hive::subkeys`] and [`Hive::values`] tell them.
fn one_by_one(hive: &Hive, path: &str) -> Vec<KeyWithValues> {
    let below = |row: &KeyRow| match path {
        "" => row.name.clone(),
        path => format!("{path}\\{}", row.name),
    };
    let rows = subkeys(hive, path).into_iter();
    rows.map(|row| (row.clone(), values(hive, &below(&row))))
        .collect()
}

fn with_values(hive: &Hive, path: &str) -> Vec<KeyWithValues> {
    hive.subkeys_with_values(path)
        .collect::<Result<_>>()
        .unwrap()
}

/// The statuses of the five calls by a path, at their first item.
fn statuses(hive: &Hive, path: &str) -> [Status; 5] {
    [
        refused(hive.look(path)),
        refused(hive.subkeys(path).next().unwrap()),
        refused(hive.values(path).next().unwrap()),
        refused(hive.subkeys_with_values(path).next().unwrap()),
        refused(hive.walk(path).next().unwrap()),
    ]
}

/// Makes a key with subkeys, whose names it tells.
fn with_subkeys(root: &Key<'_>, path: &str, count: usize) -> Vec<String> {
    let names: Vec<String> = (0..count)
        .map(|number| format!("Key {number:04}"))
        .collect();
    for name in names.iter().rev() {
        root.create(&format!("{path}\\{name}")).unwrap();
    }
    names
}

#[test]
fn a_key_is_told_by_its_path() {
    let hive = new_hive();
    let root = hive.root().unwrap();
    let marked = KeyRow {
        marks: 8,
        ..row("ROOT", 0, 0)
    };
    assert_eq!(hive.look("").unwrap(), marked);
    root.create("Soft\\Zug\\Below").unwrap();
    hive.set_clock(Clock::At(Moment(5)));
    root.open("Soft\\Zug").unwrap().set("v", 1_u32).unwrap();
    let written = KeyRow {
        time: Moment(5),
        ..row("Zug", 1, 1)
    };
    assert_eq!(hive.look("SOFT\\zug").unwrap(), written);
    let long = "n".repeat(255);
    root.create(&long).unwrap();
    assert_eq!(hive.look(&long).unwrap().name, long);
}

#[test]
fn what_isnt_there_or_is_no_path_is_refused() {
    let hive = new_hive();
    hive.root().unwrap().create("a").unwrap();
    for path in ["b", "a\\b"] {
        assert_eq!(statuses(&hive, path), [Status::FILE_NOT_FOUND; 5]);
    }
    let deep = vec!["n"; 513].join("\\");
    let long = "n".repeat(256);
    for path in ["\\", "a\\", "\\a", "a\\\\b", &long, "\u{e4}", "a\0b", &deep] {
        assert_eq!(statuses(&hive, path), [Status::INVALID_PARAMETER; 5]);
    }
}

#[test]
fn a_loop_is_over_behind_an_error() {
    let hive = new_hive();
    let mut rows = hive.subkeys("none");
    assert!(rows.next().unwrap().is_err() && rows.next().is_none());
    let mut found = hive.values("none");
    assert!(found.next().unwrap().is_err() && found.next().is_none());
    let mut walk = hive.walk("none");
    assert!(walk.next().unwrap().is_err() && walk.next().is_none());
}

#[test]
fn a_loop_over_nothing_is_over() {
    let hive = new_hive();
    let root = hive.root().unwrap();
    root.create("empty").unwrap();
    let mut rows = hive.subkeys("empty");
    let mut found = hive.values("empty");
    assert!(rows.next().is_none() && found.next().is_none());
    let key = root.create("empty\\k").unwrap();
    root.open("empty").unwrap().set("v", 1_u32).unwrap();
    assert!(rows.next().is_none() && found.next().is_none());
    drop(key);
    let step = Step {
        path: "EMPTY\\k".to_string(),
        subkeys: Vec::new(),
        values: Vec::new(),
    };
    assert_eq!(steps(&hive, "EMPTY\\k"), [step]);
}

#[test]
fn subkeys_come_in_the_order_of_their_names() {
    let hive = new_hive();
    let root = hive.root().unwrap();
    for path in ["b", "C\\d", "a", "B2"] {
        root.create(path).unwrap();
    }
    root.open("b").unwrap().set("v", 1_u32).unwrap();
    let expected = [
        row("a", 0, 0),
        row("b", 0, 1),
        row("B2", 0, 0),
        row("C", 1, 0),
    ];
    assert_eq!(subkeys(&hive, ""), expected);
}

#[test]
fn there_may_be_more_subkeys_than_rows() {
    let hive = new_hive();
    let root = hive.root().unwrap();
    for count in [ROWS - 1, ROWS, ROWS + 1, 3 * ROWS] {
        let path = format!("With {count}");
        let expected = with_subkeys(&root, &path, count);
        assert_eq!(names(subkeys(&hive, &path)), expected);
        let first = hive.walk(&path).next().unwrap().unwrap();
        assert_eq!(names(first.subkeys), expected);
    }
}

#[test]
fn there_may_be_more_names_than_the_room_has_place_for() {
    let hive = new_hive();
    let root = hive.root().unwrap();
    let expected: Vec<String> = (0..200)
        .map(|number| format!("{number:03}{}", "n".repeat(252)))
        .collect();
    for name in &expected {
        root.create(name).unwrap();
    }
    assert_eq!(names(subkeys(&hive, "")), expected);
}

#[test]
fn values_come_as_they_are() {
    let hive = new_hive();
    let root = hive.root().unwrap();
    let long = "n".repeat(16_383);
    let given = [
        ("b", Value::from(1_u32)),
        ("", Value::from("")),
        ("100 KB", Value::from(vec![1; 100_000])),
        ("a", Value::new(Kind(u32::MAX), [])),
        ("1 MiB", Value::from(vec![2; 1 << 20])),
        (&long, Value::from(vec![3; 500_000])),
        ("C", Value::from(["a", "b"])),
    ];
    for (name, value) in &given {
        root.set(name, value.clone()).unwrap();
    }
    let expected = given.map(|(name, value)| (name.to_string(), value));
    assert_eq!(values(&hive, ""), expected);
    assert_eq!(steps(&hive, "")[0].values, expected);
}

#[test]
fn a_value_may_end_with_the_room() {
    let hive = new_hive();
    let root = hive.root().unwrap();
    for size in [FIRST_ROOM - 5, FIRST_ROOM - 4, FIRST_ROOM - 3] {
        let key = root.create(&size.to_string()).unwrap();
        key.set("name", vec![1; size]).unwrap();
        key.set("next", 1_u32).unwrap();
        let expected: Vec<_> = key.values().collect::<Result<_>>().unwrap();
        assert_eq!(values(&hive, &size.to_string()), expected);
    }
}

#[test]
fn there_may_be_more_values_than_rows() {
    let hive = new_hive();
    let root = hive.root().unwrap();
    for number in 0..3 * ROWS as u32 + 1 {
        root.set(&number.to_string(), number).unwrap();
    }
    let expected: Vec<_> = root.values().collect::<Result<_>>().unwrap();
    assert_eq!(values(&hive, ""), expected);
}

#[test]
fn subkeys_come_with_their_values() {
    let hive = new_hive();
    let root = hive.root().unwrap();
    root.create("Services\\b")
        .unwrap()
        .set("Start", 1_u32)
        .unwrap();
    root.create("Services\\A\\below")
        .unwrap()
        .set("v", 2_u32)
        .unwrap();
    let start = ("Start".to_string(), Value::from(1_u32));
    let expected = [(row("A", 1, 0), Vec::new()), (row("b", 0, 1), vec![start])];
    assert_eq!(with_values(&hive, "services"), expected);
    assert_eq!(with_values(&hive, ""), one_by_one(&hive, ""));
    assert_eq!(with_values(&hive, "Services\\b"), []);
}

#[test]
fn there_may_be_more_subkeys_with_values_than_have_place() {
    let hive = new_hive();
    let root = hive.root().unwrap();
    for name in with_subkeys(&root, "many", ROWS + 2) {
        let key = root.open(&format!("many\\{name}")).unwrap();
        key.set("name", name.as_str()).unwrap();
    }
    let rich = root.open("many\\Key 0100").unwrap();
    for number in 0..ROWS as u32 + 1 {
        rich.set(&number.to_string(), number).unwrap();
    }
    let large = root.open("many\\Key 0200").unwrap();
    large.set("large", vec![1; 3 * FIRST_ROOM]).unwrap();
    assert_eq!(with_values(&hive, "many"), one_by_one(&hive, "many"));
}

#[test]
fn a_walk_comes_to_each_key_before_its_subkeys() {
    let hive = new_hive();
    let root = hive.root().unwrap();
    for path in ["b", "A\\d\\e", "A\\C"] {
        root.create(path).unwrap();
    }
    root.set("", 5_u32).unwrap();
    let found = steps(&hive, "");
    let first = Step {
        path: String::new(),
        subkeys: vec![row("A", 2, 0), row("b", 0, 0)],
        values: vec![(String::new(), Value::from(5_u32))],
    };
    assert_eq!(found[0], first);
    assert_eq!(paths(found), ["", "A", "A\\C", "A\\d", "A\\d\\e", "b"]);
    // The path that is given stays as it is.
    assert_eq!(paths(steps(&hive, "a\\D")), ["a\\D", "a\\D\\e"]);
}

#[test]
fn a_walk_comes_to_the_deepest_key() {
    let hive = new_hive();
    let mut key = hive.root().unwrap();
    for _ in 0..16 {
        key = key.create(&vec!["n"; 32].join("\\")).unwrap();
    }
    let found = steps(&hive, "");
    assert_eq!(found.len(), 513);
    assert_eq!(found[512].path, vec!["n"; 512].join("\\"));
}

#[test]
fn subkeys_are_skipped() {
    let hive = new_hive();
    let root = hive.root().unwrap();
    for path in ["A\\b\\c", "A\\d", "E\\f"] {
        root.create(path).unwrap();
    }
    let mut found = Vec::new();
    let mut walk = hive.walk("");
    // Nothing came before, so nothing is skipped.
    walk.skip_subkeys();
    while let Some(step) = walk.next() {
        let step = step.unwrap();
        if step.path == "A\\b" || step.path == "A\\d" || step.path == "E" {
            walk.skip_subkeys();
            walk.skip_subkeys();
        }
        found.push(step.path);
    }
    assert_eq!(found, ["", "A", "A\\b", "A\\d", "E"]);
}

#[test]
fn no_entry_is_made() {
    let hive = new_hive();
    hive.root().unwrap().create("a\\b").unwrap();
    let entries = hive.entries();
    hive.look("a").unwrap();
    assert_eq!(subkeys(&hive, "a").len(), 1);
    assert_eq!(values(&hive, "a").len(), 0);
    assert_eq!(steps(&hive, "").len(), 3);
    assert_eq!(hive.entries(), entries);
}

#[test]
fn rows_that_were_asked_for_stay_as_they_were() {
    let hive = new_hive();
    let root = hive.root().unwrap();
    let expected = with_subkeys(&root, "k", 2 * ROWS);
    let mut rows = hive.subkeys("k");
    rows.next().unwrap().unwrap();
    root.open("k").unwrap().delete_tree("").unwrap();
    let rest: Vec<KeyRow> = rows.collect::<Result<_>>().unwrap();
    assert_eq!(names(rest), expected[1..ROWS]);
}

#[test]
fn a_changed_key_is_asked_by_the_index() {
    let hive = new_hive();
    let root = hive.root().unwrap();
    let expected = with_subkeys(&root, "k", 2 * ROWS);
    let after = |change: &dyn Fn()| {
        let mut rows = hive.subkeys("k");
        rows.next().unwrap().unwrap();
        change();
        names(rows.collect::<Result<Vec<_>>>().unwrap())
    };
    // One comes twice, since another moved it.
    let twice = after(&|| drop(root.create("k\\A new one").unwrap()));
    assert_eq!(twice[..ROWS - 1], expected[1..ROWS]);
    assert_eq!(twice[ROWS - 1..], expected[ROWS - 1..]);
    // One is passed over.
    let less = after(&|| root.delete("k\\A new one").unwrap());
    assert_eq!(less[..ROWS - 1], expected[..ROWS - 1]);
    assert_eq!(less[ROWS - 1..], expected[ROWS..]);
}

#[test]
fn a_deleted_key_is_refused_with_its_next_items() {
    let hive = new_hive();
    let root = hive.root().unwrap();
    with_subkeys(&root, "k", 2 * ROWS);
    let mut rows = hive.subkeys("k");
    for _ in 0..ROWS {
        rows.next().unwrap().unwrap();
    }
    root.delete_tree("k").unwrap();
    assert_eq!(refused(rows.next().unwrap()), Status::FILE_NOT_FOUND);
    assert!(rows.next().is_none());
}

#[test]
fn a_value_may_outgrow_the_room_meanwhile() {
    let hive = new_hive();
    let root = hive.root().unwrap();
    for number in 0..ROWS as u32 + 1 {
        root.set(&number.to_string(), number).unwrap();
    }
    let mut found = hive.values("");
    found.next().unwrap().unwrap();
    let large = Value::from(vec![1; 1 << 20]);
    root.set(&ROWS.to_string(), large.clone()).unwrap();
    let last = found.last().unwrap().unwrap();
    assert_eq!(last, (ROWS.to_string(), large));
}

#[test]
fn a_walk_goes_on_while_the_hive_changes() {
    let hive = new_hive();
    let root = hive.root().unwrap();
    for path in ["a\\b", "c\\d", "e\\f"] {
        root.create(path).unwrap();
    }
    let mut found = Vec::new();
    for step in hive.walk("") {
        let step = step.unwrap();
        if step.path == "a" {
            root.delete_tree("c").unwrap();
            root.create("e\\g").unwrap().set("v", 1_u32).unwrap();
            root.create("later").unwrap();
        }
        found.push((step.path, step.values.len()));
    }
    let expected = [
        ("", 0),
        ("a", 0),
        ("a\\b", 0),
        ("e", 0),
        ("e\\f", 0),
        ("e\\g", 1),
    ];
    assert_eq!(
        found,
        expected.map(|(path, values)| (path.to_string(), values))
    );
}
