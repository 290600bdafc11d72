//! Stand-in for `dashmap`: a map of one thread that keeps insertion order (a replacement keeps its place) and that the
//! run can dump, since the Rust holds its maps in private fields.

use std::borrow::Borrow;
use std::cell::{self, RefCell};
use std::collections::HashMap;
use std::fmt::{self, Debug};
use std::hash::Hash;
use std::ops::{Deref, DerefMut};
use std::rc::{Rc, Weak};

/// The entries in insertion order, and where each key stands among them.
struct Entries<K, V> {
    list: Vec<(K, V)>,
    places: HashMap<K, usize>,
}

/// The map.
pub struct DashMap<K, V>(Rc<RefCell<Entries<K, V>>>);

/// A map whose entries can be written as texts.
trait Dump {
    fn dump(&self) -> Vec<(String, String)>;
}

impl<K: Debug, V: Debug> Dump for RefCell<Entries<K, V>> {
    fn dump(&self) -> Vec<(String, String)> {
        let text = |(key, value): &(K, V)| (format!("{key:?}"), format!("{value:?}"));
        self.borrow().list.iter().map(text).collect()
    }
}

thread_local! {
    static MADE: RefCell<Vec<Weak<dyn Dump>>> = const { RefCell::new(Vec::new()) };
}

/// How many maps have been made: the index that the next one will have in `dump`.
pub fn made() -> usize {
    MADE.with_borrow(Vec::len)
}

/// The entries of the map made as the `index`th, as debug texts; nothing if it is gone.
pub fn dump(index: usize) -> Vec<(String, String)> {
    let map = MADE.with_borrow(|made| made[index].upgrade());
    map.map(|map| map.dump()).unwrap_or_default()
}

/// A held entry, to read.
pub struct Ref<'a, K, V>(cell::Ref<'a, (K, V)>);

impl<K, V> Ref<'_, K, V> {
    /// Its key.
    pub fn key(&self) -> &K {
        &self.0 .0
    }

    /// Its value.
    pub fn value(&self) -> &V {
        &self.0 .1
    }
}

impl<K, V> Deref for Ref<'_, K, V> {
    type Target = V;

    fn deref(&self) -> &V {
        self.value()
    }
}

/// A held entry, to change.
pub struct RefMut<'a, K, V>(cell::RefMut<'a, (K, V)>);

impl<K, V> Deref for RefMut<'_, K, V> {
    type Target = V;

    fn deref(&self) -> &V {
        &self.0 .1
    }
}

impl<K, V> DerefMut for RefMut<'_, K, V> {
    fn deref_mut(&mut self) -> &mut V {
        &mut self.0 .1
    }
}

/// The place of one key, held or not.
pub struct Entry<'a, K, V> {
    map: &'a DashMap<K, V>,
    key: K,
}

impl<'a, K: Eq + Hash + Clone, V> Entry<'a, K, V> {
    /// Changes the value if one is held.
    pub fn and_modify(self, change: impl FnOnce(&mut V)) -> Self {
        if let Some(mut held) = self.map.get_mut(&self.key) {
            change(&mut held);
        }
        self
    }

    /// The value, made first if none is held.
    pub fn or_insert_with(self, make: impl FnOnce() -> V) -> RefMut<'a, K, V> {
        if !self.map.contains_key(&self.key) {
            self.map.insert(self.key.clone(), make());
        }
        self.map.get_mut(&self.key).expect("just held")
    }

    /// The value, its default if none is held.
    pub fn or_default(self) -> RefMut<'a, K, V>
    where
        V: Default,
    {
        self.or_insert_with(V::default)
    }
}

impl<K, V> DashMap<K, V>
where
    K: Eq + Hash + Clone + Debug + 'static,
    V: Debug + 'static,
{
    /// An empty map, entered in the list that `dump` reads.
    pub fn new() -> Self {
        let entries = Rc::new(RefCell::new(Entries {
            list: Vec::new(),
            places: HashMap::new(),
        }));
        let dumped: Rc<dyn Dump> = entries.clone();
        MADE.with_borrow_mut(|made| made.push(Rc::downgrade(&dumped)));
        DashMap(entries)
    }
}

impl<K: Eq + Hash + Clone, V> DashMap<K, V> {
    /// How many entries are held.
    pub fn len(&self) -> usize {
        self.entries().list.len()
    }

    /// Whether none is held.
    pub fn is_empty(&self) -> bool {
        self.len() == 0
    }

    /// Whether the key is held.
    pub fn contains_key<Q>(&self, key: &Q) -> bool
    where
        K: Borrow<Q>,
        Q: ?Sized + Hash + Eq,
    {
        self.place(key).is_some()
    }

    /// The entry of a key, to read.
    pub fn get<Q>(&self, key: &Q) -> Option<Ref<'_, K, V>>
    where
        K: Borrow<Q>,
        Q: ?Sized + Hash + Eq,
    {
        let place = self.place(key)?;
        Some(Ref(cell::Ref::map(self.entries(), |all| &all.list[place])))
    }

    /// The entry of a key, to change.
    pub fn get_mut<Q>(&self, key: &Q) -> Option<RefMut<'_, K, V>>
    where
        K: Borrow<Q>,
        Q: ?Sized + Hash + Eq,
    {
        let place = self.place(key)?;
        let entry = cell::RefMut::map(RefCell::borrow_mut(&self.0), |all| &mut all.list[place]);
        Some(RefMut(entry))
    }

    /// Sets the value of `key`; the old one is handed back.
    pub fn insert(&self, key: K, value: V) -> Option<V> {
        let held = self.place(&key);
        let mut all = RefCell::borrow_mut(&self.0);
        if let Some(place) = held {
            return Some(std::mem::replace(&mut all.list[place].1, value));
        }
        let place = all.list.len();
        all.places.insert(key.clone(), place);
        all.list.push((key, value));
        None
    }

    /// Takes the entry out; those after it move up by one.
    pub fn remove<Q>(&self, key: &Q) -> Option<(K, V)>
    where
        K: Borrow<Q>,
        Q: ?Sized + Hash + Eq,
    {
        let place = self.place(key)?;
        let mut all = RefCell::borrow_mut(&self.0);
        all.places.remove(key);
        for later in all.places.values_mut().filter(|at| **at > place) {
            *later -= 1;
        }
        Some(all.list.remove(place))
    }

    /// Keeps the entries that `keep` says.
    pub fn retain(&self, mut keep: impl FnMut(&K, &mut V) -> bool) {
        let mut all = RefCell::borrow_mut(&self.0);
        all.list.retain_mut(|(key, value)| keep(key, value));
        let places = all.list.iter().enumerate();
        all.places = places.map(|(at, (key, _))| (key.clone(), at)).collect();
    }

    /// The place of a key.
    pub fn entry(&self, key: K) -> Entry<'_, K, V> {
        Entry { map: self, key }
    }

    /// All entries, in insertion order.
    pub fn iter(&self) -> impl Iterator<Item = Ref<'_, K, V>> + '_ {
        let all = self.entries();
        let length = all.list.len();
        (0..length).map(move |at| {
            let entry = cell::Ref::map(cell::Ref::clone(&all), |all| &all.list[at]);
            Ref(entry)
        })
    }

    /// All entries, held to read. Named in full: `Rc` and `Borrow` have a `borrow` too.
    fn entries(&self) -> cell::Ref<'_, Entries<K, V>> {
        RefCell::borrow(&self.0)
    }

    /// Where `key` stands.
    fn place<Q>(&self, key: &Q) -> Option<usize>
    where
        K: Borrow<Q>,
        Q: ?Sized + Hash + Eq,
    {
        self.entries().places.get(key).copied()
    }
}

impl<K, V> Default for DashMap<K, V>
where
    K: Eq + Hash + Clone + Debug + 'static,
    V: Debug + 'static,
{
    fn default() -> Self {
        Self::new()
    }
}

impl<K, V> Debug for DashMap<K, V> {
    fn fmt(&self, f: &mut fmt::Formatter<'_>) -> fmt::Result {
        f.write_str("DashMap")
    }
}
