//! The count of steps, which the added lines of the copy call: whose types are read next, and each type byte.

use std::cell::RefCell;
use std::collections::HashMap;

use crate::record::Steps;

/// Whose types are read: a class its base types, a method its signature. Several readings of one owner add up.
#[derive(Clone, Copy, PartialEq, Eq, Hash)]
pub enum Owner {
    Class(usize),
    Method(usize),
}

pub struct Taken {
    ceiling: u64,
    counts: HashMap<Owner, u64>,
    owner: Option<Owner>,
    /// Of the owner so far.
    count: u64,
}

thread_local! {
    static TAKEN: RefCell<Taken> = RefCell::new(Taken::nothing(0));
}

pub fn begin(ceiling: u64) {
    TAKEN.with(|taken| *taken.borrow_mut() = Taken::nothing(ceiling));
}

pub fn end() -> Taken {
    let mut taken = TAKEN.with(|taken| taken.replace(Taken::nothing(0)));
    taken.keep();
    taken
}

pub fn of_class(number: usize) {
    TAKEN.with(|taken| taken.borrow_mut().turn_to(Owner::Class(number)));
}

pub fn of_method(number: usize) {
    TAKEN.with(|taken| taken.borrow_mut().turn_to(Owner::Method(number)));
}

/// Counts a type byte that is read. Nothing above the ceiling, so that the reading is ended.
pub fn take() -> Option<()> {
    TAKEN.with(|taken| taken.borrow_mut().take())
}

impl Taken {
    fn nothing(ceiling: u64) -> Self {
        Self {
            ceiling,
            counts: HashMap::new(),
            owner: None,
            count: 0,
        }
    }

    fn keep(&mut self) {
        if let Some(owner) = self.owner {
            self.counts.insert(owner, self.count);
        }
    }

    fn turn_to(&mut self, owner: Owner) {
        self.keep();
        self.owner = Some(owner);
        self.count = self.counts.get(&owner).copied().unwrap_or(0);
    }

    fn take(&mut self) -> Option<()> {
        assert!(self.owner.is_some(), "a type byte of no one");
        if self.count <= self.ceiling {
            self.count += 1;
        }
        (self.count <= self.ceiling).then_some(())
    }

    pub fn of(&self, owner: Owner) -> Steps {
        match self.counts.get(&owner) {
            Some(count) if *count > self.ceiling => Steps::Over,
            Some(count) => Steps::Are(*count),
            None => Steps::Are(0),
        }
    }

    pub fn is_over(&self) -> bool {
        self.counts.values().any(|count| *count > self.ceiling)
    }
}
