//! Answers the lines of the two scripts of this bench as the program does, by hand: a hash map of records, plans that are code, and
//! serde_json. `baseline B` knows the operation `B{me{age friend{age}}}`, `baseline G` the operation `G{me{age}}`.
//!
//! It is no client: it knows the one handle, the one watch and the one layer of these scripts, and refuses nothing.

use serde_json::{Map, Value};
use std::collections::{HashMap, HashSet};
use std::io::{self, BufRead, BufWriter, Write};

/// A user; the root record is the only other record, and is kept by itself.
#[derive(Clone, Default)]
struct User {
    age: Option<i64>,
    friend: Option<String>,
}

/// What is confirmed, or what a layer shows over it.
#[derive(Clone, Default)]
struct Records {
    has_root: bool,
    me: Option<String>,
    users: HashMap<String, User>,
}

/// What a read shows: the data of `me`, and whether something is missing.
#[derive(Clone, PartialEq)]
enum Shown {
    Nothing,
    Me { age: Option<i64>, friend: Option<Option<i64>> },
}

struct Snapshot {
    shown: Shown,
    missing: bool,
    seen: Vec<String>,
}

struct Client {
    asks_friend: bool,
    base: Records,
    /// The update of the live layer, and for each user that it changed what the user was before.
    layer: Option<Vec<Value>>,
    over: HashMap<String, User>,
    watch: Option<Snapshot>,
}

impl Client {
    fn new(asks_friend: bool) -> Client {
        Client { asks_friend, base: Records::default(), layer: None, over: HashMap::new(), watch: None }
    }

    fn user(&self, id: &str) -> Option<&User> {
        self.over.get(id).or_else(|| self.base.users.get(id))
    }

    /// Reads the operation from the root.
    fn read(&self) -> Snapshot {
        let mut seen = vec!["client:root".to_string()];
        let (shown, missing) = match (self.base.has_root, &self.base.me) {
            (true, Some(me)) => self.read_me(me, &mut seen),
            _ => (Shown::Nothing, true),
        };
        seen.sort();
        seen.dedup();
        Snapshot { shown, missing, seen }
    }

    fn read_me(&self, id: &str, seen: &mut Vec<String>) -> (Shown, bool) {
        seen.push(id.to_string());
        let user = self.user(id).cloned().unwrap_or_default();
        let mut missing = user.age.is_none();
        let mut friend = None;
        if self.asks_friend {
            match &user.friend {
                Some(id) => {
                    seen.push(id.clone());
                    let age = self.user(id).and_then(|it| it.age);
                    missing |= age.is_none();
                    friend = Some(age);
                }
                None => missing = true,
            }
        }
        (Shown::Me { age: user.age, friend }, missing)
    }

    /// Confirms what a response says.
    fn payload(&mut self, data: &Map<String, Value>) -> Vec<String> {
        let mut touched = Vec::new();
        if let Some(me) = data.get("me").and_then(Value::as_object) {
            let id = self.confirm_user(me, &mut touched);
            if self.base.me.as_deref() != Some(id.as_str()) || !self.base.has_root {
                self.base.me = Some(id);
                self.base.has_root = true;
                touched.push("client:root".to_string());
            }
        }
        self.apply_layer(&mut touched);
        touched
    }

    fn confirm_user(&mut self, given: &Map<String, Value>, touched: &mut Vec<String>) -> String {
        let friend = given.get("friend").and_then(Value::as_object).map(|it| self.confirm_user(it, touched));
        let id = given["id"].as_str().unwrap_or_default();
        let age = given.get("age").and_then(Value::as_i64);
        match self.base.users.get_mut(id) {
            Some(user) => {
                if (age.is_some() && user.age != age) || (friend.is_some() && user.friend != friend) {
                    user.age = age.or(user.age);
                    user.friend = friend.or_else(|| user.friend.take());
                    touched.push(id.to_string());
                }
            }
            None => {
                self.base.users.insert(id.to_string(), User { age, friend });
                touched.push(id.to_string());
            }
        }
        id.to_string()
    }

    /// Confirms updates.
    fn update(&mut self, updates: &[Value]) -> Vec<String> {
        let mut touched = Vec::new();
        for update in updates {
            let Some((id, by)) = sum_of(update) else { continue };
            if let Some(age) = self.base.users.get_mut(id).and_then(|it| it.age.as_mut()) {
                if let Some(sum) = age.checked_add(by) {
                    *age = sum;
                    touched.push(id.to_string());
                }
            }
        }
        self.apply_layer(&mut touched);
        touched
    }

    /// Applies the live layer to what is confirmed.
    fn apply_layer(&mut self, touched: &mut Vec<String>) {
        let Some(updates) = self.layer.take() else { return };
        touched.extend(self.over.drain().map(|it| it.0));
        for update in &updates {
            let Some((id, by)) = sum_of(update) else { continue };
            let Some(mut user) = self.user(id).cloned() else { continue };
            user.age = user.age.map(|it| it.checked_add(by).unwrap_or(it));
            self.over.insert(id.to_string(), user);
            touched.push(id.to_string());
        }
        self.layer = Some(updates);
    }

    fn begin(&mut self, updates: &[Value]) -> Vec<String> {
        let mut touched = Vec::new();
        self.layer = Some(updates.to_vec());
        self.apply_layer(&mut touched);
        touched
    }

    fn revert(&mut self) -> Vec<String> {
        self.layer = None;
        self.over.drain().map(|it| it.0).collect()
    }

    /// Takes out what the operation does not reach, and the live layer does not lead to: how many records go.
    fn collect(&mut self) -> usize {
        let mut kept = self.led();
        if let Some(me) = &self.base.me {
            kept.insert(me.clone());
            if self.asks_friend {
                kept.extend(self.base.users.get(me).and_then(|it| it.friend.clone()));
            }
        }
        let before = self.base.users.len();
        self.base.users.retain(|id, _| kept.contains(id));
        before - self.base.users.len()
    }

    /// The ids that the live layer's update names, and those that their records link to, and so on.
    fn led(&self) -> HashSet<String> {
        let mut led = HashSet::new();
        let mut open: Vec<String> = self.layer.iter().flatten().filter_map(sum_of).map(|it| it.0.to_string()).collect();
        while let Some(id) = open.pop() {
            let friend = self.base.users.get(&id).and_then(|it| it.friend.clone());
            if led.insert(id) {
                open.extend(friend);
            }
        }
        led
    }

    /// Answers a line.
    fn answer(&mut self, line: &[u8], n: usize, out: &mut impl Write) -> io::Result<()> {
        let event: Value = serde_json::from_slice(line)?;
        let updates = || event.get("updates").and_then(Value::as_array).map_or(&[][..], Vec::as_slice);
        let told = event["do"].as_str().unwrap_or_default();
        let touched = match told {
            "payload" => event["response"]["data"].as_object().map_or_else(Vec::new, |it| self.payload(it)),
            "update" => self.update(updates()),
            "begin" => self.begin(updates()),
            "revert" => self.revert(),
            "watch" => {
                let first = self.read();
                show(out, &first, self.asks_friend, n, "ok", "watch")?;
                self.watch = Some(first);
                return Ok(());
            }
            "collect" => return self.swept(n, out),
            _ => Vec::new(),
        };
        writeln!(out, "{{\"n\":{n},\"ok\":\"{told}\"}}")?;
        self.tell(&touched, n, out)
    }

    fn swept(&mut self, n: usize, out: &mut impl Write) -> io::Result<()> {
        let dropped = self.collect();
        writeln!(out, "{{\"dropped\":{dropped},\"n\":{n},\"ok\":\"collect\",\"waiting\":false}}")
    }

    /// Reads the watch again where it saw an id that was touched, and reports what differs.
    fn tell(&mut self, touched: &[String], n: usize, out: &mut impl Write) -> io::Result<()> {
        let Some(kept) = &self.watch else { return Ok(()) };
        if !touched.iter().any(|id| kept.seen.contains(id)) {
            return Ok(());
        }
        let now = self.read();
        if now.shown != kept.shown || now.missing != kept.missing {
            show(out, &now, self.asks_friend, n, "notice", "w")?;
        }
        self.watch = Some(now);
        Ok(())
    }
}

/// What an update adds to whose age.
fn sum_of(update: &Value) -> Option<(&str, i64)> {
    let add = update.get("add")?;
    Some((add.get("id")?.as_str()?, add.get("by")?.as_i64()?))
}

/// Prints a read.
fn show(out: &mut impl Write, it: &Snapshot, asks_friend: bool, n: usize, key: &str, value: &str) -> io::Result<()> {
    out.write_all(b"{\"data\":")?;
    match &it.shown {
        Shown::Nothing => out.write_all(if it.missing && it.seen.len() > 1 { b"{}" } else { b"null" })?,
        Shown::Me { age, friend } => {
            let mut comma = "";
            out.write_all(b"{\"me\":{")?;
            if let Some(age) = age {
                write!(out, "\"age\":{age}")?;
                comma = ",";
            }
            if asks_friend {
                match friend {
                    Some(Some(age)) => write!(out, "{comma}\"friend\":{{\"age\":{age}}}")?,
                    Some(None) => write!(out, "{comma}\"friend\":{{}}")?,
                    None => {}
                }
            }
            out.write_all(b"}}")?;
        }
    }
    write!(out, ",\"missing\":{},\"n\":{n},\"{key}\":\"{value}\",\"seen\":", it.missing)?;
    serde_json::to_writer(&mut *out, &it.seen)?;
    out.write_all(b"}\n")
}

fn main() -> io::Result<()> {
    let asks_friend = std::env::args().nth(1).as_deref() == Some("B");
    let mut client = Client::new(asks_friend);
    let mut out = BufWriter::with_capacity(1 << 16, io::stdout().lock());
    let mut input = io::BufReader::with_capacity(1 << 16, io::stdin().lock());
    let (mut line, mut n) = (Vec::new(), 0);
    while input.read_until(b'\n', &mut line)? > 0 {
        n += 1;
        client.answer(line.strip_suffix(b"\n").unwrap_or(&line), n, &mut out)?;
        line.clear();
    }
    out.flush()
}
