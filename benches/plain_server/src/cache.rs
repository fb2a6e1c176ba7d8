//! A cache by use: a hash map of places, and a list through its nodes in the order of their use.
use std::collections::HashMap;
use std::sync::Arc;

/// No place.
const NOWHERE: usize = usize::MAX;

/// Why a value left.
#[derive(Clone, Copy, Debug, PartialEq, Eq)]
pub enum Cause {
    Explicit,
    Replaced,
    Size,
}

impl Cause {
    fn word(self) -> &'static [u8] {
        match self {
            Cause::Explicit => b"Explicit",
            Cause::Replaced => b"Replaced",
            Cause::Size => b"Size",
        }
    }
}

/// A value that left.
pub struct Note {
    cause: Cause,
    key: Arc<[u8]>,
    value: Box<[u8]>,
}

impl Note {
    /// Its line.
    pub fn write_to(&self, line: &mut Vec<u8>) {
        line.extend_from_slice(b"NOTE ");
        line.extend_from_slice(self.cause.word());
        line.push(b' ');
        line.extend_from_slice(&self.key);
        line.push(b' ');
        line.extend_from_slice(&self.value);
        line.push(b'\n');
    }
}

struct Node {
    key: Arc<[u8]>,
    value: Box<[u8]>,
    before: usize,
    behind: usize,
}

/// A cache of at most so many values, of which the least recently used leaves.
pub struct Cache {
    capacity: Option<usize>,
    places: HashMap<Arc<[u8]>, usize>,
    nodes: Vec<Node>,
    free: Vec<usize>,
    first: usize,
    last: usize,
    notes: Vec<Note>,
}

impl Cache {
    pub fn new(capacity: Option<usize>) -> Cache {
        Cache {
            capacity,
            places: HashMap::new(),
            nodes: Vec::new(),
            free: Vec::new(),
            first: NOWHERE,
            last: NOWHERE,
            notes: Vec::new(),
        }
    }

    pub fn len(&self) -> usize {
        self.places.len()
    }

    /// The value of a key, which is used.
    pub fn get(&mut self, key: &[u8]) -> Option<&[u8]> {
        let place = *self.places.get(key)?;
        self.use_place(place);
        Some(&self.nodes[place].value)
    }

    /// Whether a key has a value; no use of it.
    pub fn has(&self, key: &[u8]) -> bool {
        self.places.contains_key(key)
    }

    /// Stores a value; false where the capacity is 0.
    pub fn set(&mut self, key: &[u8], value: &[u8]) -> bool {
        if self.capacity == Some(0) {
            return false;
        }
        if let Some(&place) = self.places.get(key) {
            let node = &mut self.nodes[place];
            let old = std::mem::replace(&mut node.value, value.into());
            let key = node.key.clone();
            self.tell(Cause::Replaced, key, old);
            self.use_place(place);
        } else {
            self.insert(key, value);
        }
        true
    }

    /// Removes a value.
    pub fn remove(&mut self, key: &[u8]) {
        if let Some(place) = self.places.remove(key) {
            self.leave(place, Cause::Explicit);
        }
    }

    /// Removes all values.
    pub fn clear(&mut self) {
        while self.first != NOWHERE {
            self.leave_first(Cause::Explicit);
        }
    }

    /// The keys, in byte order.
    pub fn keys(&self) -> Vec<&[u8]> {
        let mut keys: Vec<&[u8]> = self.places.keys().map(|key| &key[..]).collect();
        keys.sort_unstable();
        keys
    }

    /// The values that left and were not taken.
    pub fn take_notes(&mut self) -> Vec<Note> {
        std::mem::take(&mut self.notes)
    }

    fn insert(&mut self, key: &[u8], value: &[u8]) {
        if self.capacity == Some(self.len()) {
            self.leave_first(Cause::Size);
        }
        let key: Arc<[u8]> = key.into();
        let node = Node {
            key: key.clone(),
            value: value.into(),
            before: NOWHERE,
            behind: NOWHERE,
        };
        let place = match self.free.pop() {
            Some(place) => {
                self.nodes[place] = node;
                place
            }
            None => {
                self.nodes.push(node);
                self.nodes.len() - 1
            }
        };
        self.places.insert(key, place);
        self.link_last(place);
    }

    fn leave_first(&mut self, cause: Cause) {
        let place = self.first;
        let key = self.nodes[place].key.clone();
        self.places.remove(&key);
        self.leave(place, cause);
    }

    /// A value leaves whose key is gone already.
    fn leave(&mut self, place: usize, cause: Cause) {
        self.unlink(place);
        self.free.push(place);
        let node = &mut self.nodes[place];
        let (key, value) = (node.key.clone(), std::mem::take(&mut node.value));
        self.tell(cause, key, value);
    }

    fn tell(&mut self, cause: Cause, key: Arc<[u8]>, value: Box<[u8]>) {
        self.notes.push(Note { cause, key, value });
    }

    fn use_place(&mut self, place: usize) {
        if self.last != place {
            self.unlink(place);
            self.link_last(place);
        }
    }

    fn unlink(&mut self, place: usize) {
        let (before, behind) = (self.nodes[place].before, self.nodes[place].behind);
        match before {
            NOWHERE => self.first = behind,
            _ => self.nodes[before].behind = behind,
        }
        match behind {
            NOWHERE => self.last = before,
            _ => self.nodes[behind].before = before,
        }
    }

    fn link_last(&mut self, place: usize) {
        let last = self.last;
        self.nodes[place].before = last;
        self.nodes[place].behind = NOWHERE;
        match last {
            NOWHERE => self.first = place,
            _ => self.nodes[last].behind = place,
        }
        self.last = place;
    }
}
