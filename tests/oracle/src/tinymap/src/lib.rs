//! Dense tables with typed keys: what the seven files use of tinymap.

use std::marker::PhantomData;
use std::ops::{Index, IndexMut};

/// A position in a dense table.
pub trait Key: Copy {
    /// The key of a position.
    fn at(position: usize) -> Self;
    /// The position of a key.
    fn position(self) -> usize;
}

/// Declares a key type.
#[macro_export]
macro_rules! key_type {
    ($(#[$attribute:meta])* $visibility:vis $name:ident) => {
        $(#[$attribute])*
        #[derive(Clone, Copy, Debug, Eq, Hash, Ord, PartialEq, PartialOrd)]
        $visibility struct $name(u32);

        impl $name {
            /// The key with this number.
            #[must_use]
            pub const fn new(number: u32) -> Self {
                Self(number)
            }
            /// The number of this key.
            #[must_use]
            pub const fn as_u32(self) -> u32 {
                self.0
            }
        }

        impl $crate::Key for $name {
            fn at(position: usize) -> Self {
                Self(position as u32)
            }
            fn position(self) -> usize {
                self.0 as usize
            }
        }
    };
}

/// A stretch of a backing slice.
pub struct SliceRange<T> {
    first: usize,
    count: usize,
    item: PhantomData<fn() -> T>,
}
impl<T> SliceRange<T> {
    /// The stretch of `count` items from `first` on.
    #[must_use]
    pub const fn new(first: usize, count: usize) -> Self {
        Self { first, count, item: PhantomData }
    }
    /// The items of the stretch, if the slice has them.
    pub fn get<'a>(&self, items: &'a [T]) -> Option<&'a [T]> {
        items.get(self.first..self.first + self.count)
    }
}
impl<T> Clone for SliceRange<T> {
    fn clone(&self) -> Self {
        *self
    }
}
impl<T> Copy for SliceRange<T> {}
impl<T> PartialEq for SliceRange<T> {
    fn eq(&self, other: &Self) -> bool {
        (self.first, self.count) == (other.first, other.count)
    }
}
impl<T> Eq for SliceRange<T> {}
impl<T> std::fmt::Debug for SliceRange<T> {
    fn fmt(&self, formatter: &mut std::fmt::Formatter<'_>) -> std::fmt::Result {
        write!(formatter, "{}+{}", self.first, self.count)
    }
}

/// A borrowed dense table.
#[derive(Debug)]
pub struct TinyMapRef<'a, K, V> {
    values: &'a [V],
    key: PhantomData<fn() -> K>,
}
impl<K, V> Clone for TinyMapRef<'_, K, V> {
    fn clone(&self) -> Self {
        Self { values: self.values, key: PhantomData }
    }
}
impl<'a, K, V> TinyMapRef<'a, K, V> {
    /// The table of these values, keyed by position.
    #[must_use]
    pub const fn new(values: &'a [V]) -> Self {
        Self { values, key: PhantomData }
    }
    /// The number of values.
    #[must_use]
    pub const fn len(&self) -> usize {
        self.values.len()
    }
    /// Whether there is no value.
    #[must_use]
    pub const fn is_empty(&self) -> bool {
        self.values.is_empty()
    }
    /// The values in order.
    pub fn values(&self) -> std::slice::Iter<'a, V> {
        self.values.iter()
    }
}
impl<'a, K: Key, V> TinyMapRef<'a, K, V> {
    /// The value of a key, if there is one.
    pub fn get(&self, key: K) -> Option<&'a V> {
        self.values.get(key.position())
    }
    /// The keys in order.
    pub fn keys(&self) -> impl Iterator<Item = K> + 'a
    where
        K: 'a,
    {
        (0..self.values.len()).map(K::at)
    }
    /// Keys and values in order.
    pub fn iter(&self) -> impl Iterator<Item = (K, &'a V)> + 'a
    where
        K: 'a,
    {
        self.values.iter().enumerate().map(|(position, value)| (K::at(position), value))
    }
}
impl<K: Key, V> Index<K> for TinyMapRef<'_, K, V> {
    type Output = V;
    fn index(&self, key: K) -> &V {
        &self.values[key.position()]
    }
}

/// Values for keys of another table.
pub struct TinySecondaryMap<K, V> {
    values: Vec<Option<V>>,
    key: PhantomData<fn() -> K>,
}
impl<K: Key, V> TinySecondaryMap<K, V> {
    /// An empty map with room for `capacity` values.
    #[must_use]
    pub fn with_capacity(capacity: usize) -> Self {
        Self { values: Vec::with_capacity(capacity), key: PhantomData }
    }
    /// Puts a value at a key.
    pub fn insert(&mut self, key: K, value: V) -> Option<V> {
        while self.values.len() <= key.position() {
            self.values.push(None);
        }
        self.values[key.position()].replace(value)
    }
    /// The number of values.
    pub fn len(&self) -> usize {
        self.values().count()
    }
    /// Whether there is no value.
    pub fn is_empty(&self) -> bool {
        self.len() == 0
    }
    /// The value of a key, if there is one.
    pub fn get(&self, key: K) -> Option<&V> {
        self.values.get(key.position())?.as_ref()
    }
    /// The keys in order.
    pub fn keys(&self) -> impl Iterator<Item = K> + '_ {
        let entries = self.values.iter().enumerate();
        entries.filter(|(_, value)| value.is_some()).map(|(position, _)| K::at(position))
    }
    /// The values in order.
    pub fn values(&self) -> impl Iterator<Item = &V> + '_ {
        self.values.iter().flatten()
    }
}
impl<K: Key, V> Index<K> for TinySecondaryMap<K, V> {
    type Output = V;
    fn index(&self, key: K) -> &V {
        self.values[key.position()].as_ref().expect("a value at this key")
    }
}
impl<K: Key, V> IndexMut<K> for TinySecondaryMap<K, V> {
    fn index_mut(&mut self, key: K) -> &mut V {
        self.values[key.position()].as_mut().expect("a value at this key")
    }
}
