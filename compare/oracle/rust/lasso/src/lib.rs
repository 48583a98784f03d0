//! Stands for the crate `lasso`, which docs/src does not hold: the string interner, with the four
//! calls that intern.rs makes.
//!
//! Equivalent here: equal strings get equal symbols, different strings different ones, and a
//! symbol resolves to its string. The fold asks nothing else of a symbol.
use std::collections::HashMap;
use std::hash::BuildHasher;
use std::marker::PhantomData;
use std::sync::Mutex;

/// A symbol: its string's place in the order of interning.
#[derive(Clone, Copy, Debug, PartialEq, Eq, Hash, PartialOrd, Ord)]
pub struct Spur(u32);

pub struct ThreadedRodeo<K, S> {
    strings: Mutex<Strings<S>>,
    key: PhantomData<fn() -> K>,
}

/// Interned strings live as long as the program, as those of intern.rs do.
struct Strings<S> {
    symbols: HashMap<&'static str, Spur, S>,
    in_order: Vec<&'static str>,
}

impl<S: BuildHasher> ThreadedRodeo<Spur, S> {
    pub fn with_hasher(hasher: S) -> Self {
        let strings = Strings {
            symbols: HashMap::with_hasher(hasher),
            in_order: Vec::new(),
        };
        Self {
            strings: Mutex::new(strings),
            key: PhantomData,
        }
    }

    pub fn get_or_intern(&self, s: &str) -> Spur {
        let mut strings = self.strings.lock().expect("no holder of the lock panics");
        if let Some(&symbol) = strings.symbols.get(s) {
            return symbol;
        }
        let symbol = Spur(u32::try_from(strings.in_order.len()).expect("fewer than 2^32 strings"));
        let kept: &'static str = Box::leak(s.into());
        strings.symbols.insert(kept, symbol);
        strings.in_order.push(kept);
        symbol
    }

    pub fn get_or_intern_static(&self, s: &'static str) -> Spur {
        self.get_or_intern(s)
    }

    pub fn resolve(&self, symbol: &Spur) -> &'static str {
        self.strings
            .lock()
            .expect("no holder of the lock panics")
            .in_order[symbol.0 as usize]
    }
}
