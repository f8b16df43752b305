//! Random calls against a model: a map from the paths of keys to their values.

use crate::{new_hive, MOMENT};
use std::collections::BTreeMap;
use zugmeled::{Clock, Hive, Key, Kind, Result, Status, Value};

/// A key's values, as their names were added.
type Values = Vec<(String, Value)>;

/// All keys by their paths; that of the root is empty.
type Model = BTreeMap<String, Values>;

/// Numbers that look random, and are the same in each run (xorshift).
struct Random(u64);

impl Random {
    fn below(&mut self, limit: u64) -> u64 {
        self.0 ^= self.0 << 13;
        self.0 ^= self.0 >> 7;
        self.0 ^= self.0 << 17;
        self.0 % limit
    }

    fn name(&mut self) -> String {
        ["a", "b", "c"][self.below(3) as usize].to_string()
    }

    fn path(&mut self) -> String {
        let depth = 1 + self.below(3);
        let names: Vec<String> = (0..depth).map(|_| self.name()).collect();
        names.join("\\")
    }

    fn value(&mut self) -> Value {
        let size = [0, 1, 4, 1024, 1025, 20_000][self.below(6) as usize];
        let byte = self.below(256) as u8;
        Value::new(Kind(self.below(12) as u32), vec![byte; size])
    }
}

#[test]
fn random_calls_answer_as_the_model_does() {
    for seed in 1..=20 {
        let mut random = Random(0x9E37_79B9_7F4A_7C15 ^ seed);
        let mut model = Model::from([(String::new(), Values::new())]);
        let mut hive = new_hive();
        for _ in 0..10 {
            for _ in 0..30 {
                call(&hive, &mut model, &mut random);
            }
            assert_eq!(tree_of(&hive), model);
            assert_eq!(walked(&hive), model);
            hive = Hive::load(&hive.image().unwrap()).unwrap();
            hive.set_clock(Clock::At(MOMENT));
            assert_eq!(tree_of(&hive), model);
            assert_eq!(walked(&hive), model);
        }
    }
}

fn call(hive: &Hive, model: &mut Model, random: &mut Random) {
    let root = hive.root().unwrap();
    let (path, name) = (random.path(), random.name());
    match random.below(8) {
        0..=2 => {
            root.create(&path).unwrap();
            make(model, &path);
        }
        3..=4 => {
            let value = random.value();
            let set = root
                .open(&path)
                .and_then(|key| key.set(&name, value.clone()));
            assert_eq!(status_of(set), set_in(model, &path, name, value));
        }
        5 => {
            let deleted = root.open(&path).and_then(|key| key.delete_value(&name));
            assert_eq!(status_of(deleted), delete_value_in(model, &path, &name));
        }
        6 => assert_eq!(status_of(root.delete(&path)), delete_in(model, &path)),
        _ => assert_eq!(
            status_of(root.delete_tree(&path)),
            delete_tree_in(model, &path)
        ),
    }
}

fn status_of(result: Result<()>) -> Option<Status> {
    result.err().map(|error| error.status())
}

fn make(model: &mut Model, path: &str) {
    let ends = path.match_indices('\\').map(|(at, _)| at);
    for end in ends.chain([path.len()]) {
        model.entry(path[..end].to_string()).or_default();
    }
}

fn set_in(model: &mut Model, path: &str, name: String, value: Value) -> Option<Status> {
    let Some(values) = model.get_mut(path) else {
        return Some(Status::FILE_NOT_FOUND);
    };
    match values.iter_mut().find(|(standing, _)| *standing == name) {
        Some((_, standing)) => *standing = value,
        None => values.push((name, value)),
    }
    None
}

fn delete_value_in(model: &mut Model, path: &str, name: &str) -> Option<Status> {
    let values = model.get_mut(path);
    let found = values.and_then(|values| {
        let at = values.iter().position(|(standing, _)| standing == name)?;
        Some(values.remove(at))
    });
    found.is_none().then_some(Status::FILE_NOT_FOUND)
}

fn delete_in(model: &mut Model, path: &str) -> Option<Status> {
    let below = format!("{path}\\");
    if model.keys().any(|other| other.starts_with(&below)) {
        return Some(Status::ACCESS_DENIED);
    }
    model
        .remove(path)
        .is_none()
        .then_some(Status::FILE_NOT_FOUND)
}

fn delete_tree_in(model: &mut Model, path: &str) -> Option<Status> {
    let below = format!("{path}\\");
    model.retain(|other, _| !other.starts_with(&below));
    model
        .remove(path)
        .is_none()
        .then_some(Status::FILE_NOT_FOUND)
}

/// The keys of a hive, as a model has them.
fn tree_of(hive: &Hive) -> Model {
    let mut tree = Model::new();
    walk(&hive.root().unwrap(), "", &mut tree).unwrap();
    tree
}

fn walk(key: &Key<'_>, path: &str, tree: &mut Model) -> Result<()> {
    tree.insert(path.to_string(), key.values().collect::<Result<_>>()?);
    for child in key.keys() {
        let name = child?.name;
        let below = if path.is_empty() {
            name.clone()
        } else {
            format!("{path}\\{name}")
        };
        walk(&key.open(&name)?, &below, tree)?;
    }
    Ok(())
}

/// The same by a walk without handles.
fn walked(hive: &Hive) -> Model {
    let steps = hive.walk("").map(|step| step.unwrap());
    steps.map(|step| (step.path, step.values)).collect()
}
