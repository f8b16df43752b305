//! A hive passes between threads.

use crate::new_hive;
use std::error::Error;
use std::sync::Mutex;
use std::thread;
use zugmeled::{Hive, Result};

#[test]
fn a_hive_is_sent() {
    fn send<T: Send + 'static>(_: &T) {}
    let hive = new_hive();
    send(&hive);
    hive.root().unwrap().set("v", 1_u32).unwrap();
    let hive = thread::spawn(move || {
        hive.root().unwrap().set("v", 2_u32).unwrap();
        hive
    });
    let hive = hive.join().unwrap();
    assert_eq!(hive.root().unwrap().get::<u32>("v").unwrap(), Some(2));
}

#[test]
fn a_mutex_shares_a_hive() {
    let hive = Mutex::new(new_hive());
    thread::scope(|scope| {
        for number in 0..8 {
            let hive = &hive;
            scope.spawn(move || {
                (0..100).for_each(|_| count(&hive.lock().unwrap(), number).unwrap())
            });
        }
    });
    let hive = hive.into_inner().unwrap();
    let root = hive.root().unwrap();
    assert_eq!(root.keys().count(), 8);
    for key in root.keys() {
        let key = root.open(&key.unwrap().name).unwrap();
        assert_eq!(key.get::<u32>("count").unwrap(), Some(100));
    }
}

fn count(hive: &Hive, number: u32) -> Result<()> {
    let key = hive.root()?.create(&number.to_string())?;
    key.set("count", key.get::<u32>("count")?.unwrap_or(0) + 1)
}

#[test]
fn an_error_may_pass_on() {
    fn pass(error: impl Error + Send + Sync + 'static) -> Box<dyn Error + Send + Sync> {
        error.into()
    }
    let error = pass(Hive::load(b"").unwrap_err());
    assert!(error.to_string().contains("1017"));
}
