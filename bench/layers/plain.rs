//! Makes the changes of the scripts beside this file in a map of records, with a list of what to undo for each layer:
//! plain ROW COUNT TIMES. With ROW-before it makes what stands before the changes alone.

use std::collections::BTreeMap;

type Fields = BTreeMap<String, i64>;
type Records = BTreeMap<String, Fields>;

/// A sum that is added to a field of a record.
#[derive(Clone)]
struct Add {
    id: String,
    field: String,
    by: i64,
}

/// A layer: its changes, and the fields that they changed as they were before, in order.
struct Layer {
    name: String,
    changes: Vec<Add>,
    undo: Vec<(String, String, i64)>,
}

struct Store {
    records: Records,
    layers: Vec<Layer>,
}

fn add(id: &str, by: i64) -> Add {
    Add { id: id.to_string(), field: "age".to_string(), by }
}

/// Makes a change, and answers what to undo, and the record that was touched.
fn apply(records: &mut Records, change: &Add) -> Option<(String, String, i64)> {
    let value = records.get_mut(&change.id)?.get_mut(&change.field)?;
    let before = *value;
    *value = before.checked_add(change.by)?;
    Some((change.id.clone(), change.field.clone(), before))
}

impl Store {
    /// Applies a layer's changes, and notes what to undo.
    fn lay(&mut self, at: usize) {
        let layer = &mut self.layers[at];
        let records = &mut self.records;
        layer.undo = layer.changes.iter().filter_map(|it| apply(records, it)).collect();
    }

    /// Undoes the layers from a place on, the newest first.
    fn lift(&mut self, at: usize) {
        for layer in self.layers[at..].iter_mut().rev() {
            for (id, field, before) in layer.undo.drain(..).rev() {
                if let Some(value) = self.records.get_mut(&id).and_then(|it| it.get_mut(&field)) {
                    *value = before;
                }
            }
        }
    }

    fn begin(&mut self, name: String, changes: Vec<Add>) {
        self.layers.push(Layer { name, changes, undo: Vec::new() });
        self.lay(self.layers.len() - 1);
    }

    fn revert(&mut self, name: &str) {
        let Some(at) = self.layers.iter().position(|it| it.name == name) else { return };
        self.lift(at);
        self.layers.remove(at);
        for at in at..self.layers.len() {
            self.lay(at);
        }
    }

    /// Confirms changes below all layers.
    fn commit(&mut self, changes: &[Add]) {
        self.lift(0);
        changes.iter().for_each(|it| drop(apply(&mut self.records, it)));
        for at in 0..self.layers.len() {
            self.lay(at);
        }
    }
}

fn one_record(fields: usize) -> Store {
    let mut record = Fields::from([("age".to_string(), 5)]);
    record.extend((0..fields).map(|n| (format!("age(n:{n})"), n as i64)));
    Store { records: Records::from([("4".to_string(), record)]), layers: Vec::new() }
}

fn many_records(count: usize) -> Store {
    let records = (0..count).map(|n| (format!("u{n:06}"), Fields::from([("age".to_string(), n as i64)]))).collect();
    Store { records, layers: Vec::new() }
}

/// What stands before the changes of a row.
fn before(row: &str, count: usize) -> Store {
    match row {
        "fields" => one_record(count),
        "records" => many_records(count),
        _ => one_record(0),
    }
}

/// Makes the changes of a row.
fn change(row: &str, count: usize, store: &mut Store) {
    match row {
        "newest" | "oldest" => {
            (0..count).for_each(|n| store.begin(format!("l{n}"), vec![add("4", 1)]));
            let names = 0..count;
            let order: Vec<usize> = if row == "newest" { names.rev().collect() } else { names.collect() };
            order.iter().for_each(|n| store.revert(&format!("l{n}")));
        }
        "below" => {
            store.begin("l".to_string(), vec![add("4", 100)]);
            (0..count).for_each(|_| store.commit(&[add("4", 1)]));
        }
        "updates" => (0..count).for_each(|_| store.commit(&[add("4", 1)])),
        "commands" => store.commit(&vec![add("4", 1); count]),
        "fields" => (0..1_000).for_each(|_| store.commit(&[add("4", 1)])),
        "records" => (0..count).for_each(|n| store.commit(&[add(&format!("u{n:06}"), 1)])),
        _ => {}
    }
}

fn main() {
    let words: Vec<String> = std::env::args().collect();
    let row = words[1].as_str();
    let (count, times) = (words[2].parse().unwrap(), words[3].parse().unwrap());
    for _ in 0..times {
        let mut store = before(row.trim_end_matches("-before"), count);
        change(row, count, &mut store);
        println!("{}", store.records.values().next().map_or(0, |it| it["age"]));
    }
}
