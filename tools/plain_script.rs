//! Registry calls by script over plain maps, with a journal: what `regtool run` is measured beside. It reads the lines root, open, create,
//! set, query and close, and writes their replies. Handles have neither rights nor sessions here, and a refusal is `bad`.
use std::collections::{BTreeMap, HashMap};
use std::io::{BufRead, BufWriter, Write};
#[allow(dead_code)]
enum Change { Root, Open(u64, Vec<u8>, u32), Create(u64, Vec<u8>, u32), Set(u64, Vec<u8>, u32, Vec<u8>), Close(u64) }
#[derive(Default)]
struct Key { children: BTreeMap<Vec<u8>, usize>, values: Vec<(Vec<u8>, u32, Vec<u8>)> }
struct Store { keys: Vec<Key>, handles: HashMap<u64, (usize, u32)>, journal: Vec<(u8, u64, Change)> }
fn number<T: std::str::FromStr>(word: &[u8]) -> Option<T> { std::str::from_utf8(word).ok()?.parse().ok() }
fn digit(byte: u8) -> Option<u8> { (byte as char).to_digit(16).map(|digit| digit as u8) }
fn name(word: &[u8]) -> Option<Vec<u8>> {
    let (mut rest, mut bytes) = (word.strip_prefix(b"=")?, Vec::new());
    while let Some((first, behind)) = rest.split_first() {
        let escaped = if *first == b'%' && behind.len() > 1 { digit(behind[0]).zip(digit(behind[1])) } else { None };
        rest = if escaped.is_some() { &behind[2..] } else { behind };
        bytes.push(escaped.map_or(*first, |(high, low)| 16 * high + low));
    }
    Some(bytes)
}
fn data(word: &[u8]) -> Option<Vec<u8>> {
    let digits = word.strip_prefix(b"x")?;
    digits.chunks(2).map(|pair| Some(16 * digit(pair[0])? + digit(*pair.get(1)?)?)).collect()
}
fn folded(name: &[u8]) -> Vec<u8> { name.to_ascii_uppercase() }
impl Store {
    fn walk(&self, from: usize, path: &[u8]) -> Option<usize> {
        path.split(|byte| *byte == b'\\').try_fold(from, |key, name| self.keys[key].children.get(&folded(name)).copied())
    }
    fn create(&mut self, from: usize, path: &[u8]) -> (usize, u32) {
        let (mut key, mut disposition) = (from, 2);
        for name in path.split(|byte| *byte == b'\\') {
            let place = self.keys.len();
            key = *self.keys[key].children.entry(folded(name)).or_insert(place);
            if key == place { self.keys.push(Key::default()); disposition = 1; }
        }
        (key, disposition)
    }
    fn open(&mut self, key: usize, mask: u32, change: Change) -> u64 {
        let entry = self.journal.len() as u64;
        self.handles.insert(entry, (key, mask));
        self.journal.push((0, 0, change));
        entry
    }
    fn line(&mut self, line: &[u8], out: &mut impl Write) -> Option<()> {
        let words: Vec<&[u8]> = line.split(|byte| *byte == b' ').collect();
        match (words[0], words.len()) {
            (b"root", 2) => { let entry = self.open(0, number(words[1])?, Change::Root); writeln!(out, "0 handle {entry}").ok() }
            (b"open", 4) => {
                let (handle, path, mask) = (number(words[1])?, name(words[2])?, number(words[3])?);
                let key = self.walk(self.handles.get(&handle)?.0, &path)?;
                let entry = self.open(key, mask, Change::Open(handle, path, mask));
                writeln!(out, "0 handle {entry}").ok()
            }
            (b"create", 4) => {
                let (handle, path, mask) = (number(words[1])?, name(words[2])?, number(words[3])?);
                let (key, disposition) = self.create(self.handles.get(&handle)?.0, &path);
                let entry = self.open(key, mask, Change::Create(handle, path, mask));
                writeln!(out, "0 handle {entry} disposition {disposition}").ok()
            }
            (b"set", 5) => {
                let (handle, name, kind, data) = (number(words[1])?, name(words[2])?, number(words[3])?, data(words[4])?);
                let values = &mut self.keys[self.handles.get(&handle)?.0].values;
                match values.iter_mut().find(|value| value.0.eq_ignore_ascii_case(&name)) {
                    Some(value) => { value.1 = kind; value.2.clone_from(&data); }
                    None => values.push((name.clone(), kind, data.clone())),
                }
                self.journal.push((0, 0, Change::Set(handle, name, kind, data)));
                writeln!(out, "0").ok()
            }
            (b"query", 4) => {
                let (handle, name, room) = (number::<u64>(words[1])?, name(words[2])?, number::<usize>(words[3])?);
                let value = self.keys[self.handles.get(&handle)?.0].values.iter().find(|value| value.0.eq_ignore_ascii_case(&name))?;
                write!(out, "0 type {} size {}", value.1, value.2.len()).ok()?;
                if value.2.len() <= room {
                    out.write_all(b" x").ok()?;
                    for byte in &value.2 { out.write_all(&[b"0123456789abcdef"[(byte >> 4) as usize], b"0123456789abcdef"[(byte & 15) as usize]]).ok()?; }
                }
                out.write_all(b"\n").ok()
            }
            (b"close", 2) => {
                let handle = number(words[1])?;
                self.handles.remove(&handle)?;
                self.journal.push((0, 0, Change::Close(handle)));
                writeln!(out, "0").ok()
            }
            _ => None,
        }
    }
}
fn main() {
    let mut store = Store { keys: vec![Key::default()], handles: HashMap::new(), journal: Vec::new() };
    let (mut input, mut out, mut line) = (std::io::stdin().lock(), BufWriter::new(std::io::stdout().lock()), Vec::new());
    while input.read_until(b'\n', &mut line).unwrap() > 0 {
        if store.line(line.strip_suffix(b"\n").unwrap_or(&line), &mut out).is_none() { writeln!(out, "bad").unwrap(); }
        line.clear();
    }
}
