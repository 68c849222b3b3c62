//! Memory that is lent for a call, so that what is written where nothing may be, or read there, is seen.

/// A slice of its own. Between guards, a write beyond it is seen afterwards; without them the slice is all that is allocated,
/// so that a tool that watches memory sees reads beyond it too.
pub struct Lent<T> {
    memory: Vec<T>,
    guards: usize,
}

/// How a slice is lent.
#[derive(Clone, Copy, PartialEq)]
pub enum Lending {
    Guarded,
    Apart,
}

pub trait Item: Copy {
    const GUARD: Self;
    fn bits(self) -> u128;
}

impl Item for f64 {
    const GUARD: f64 = f64::from_bits(0xC3C3_C3C3_C3C3_C3C3);
    fn bits(self) -> u128 {
        self.to_bits() as u128
    }
}

impl Item for usize {
    const GUARD: usize = 0xC3C3_C3C3_C3C3_C3C3;
    fn bits(self) -> u128 {
        self as u128
    }
}

impl Item for u32 {
    const GUARD: u32 = 0xC3C3_C3C3;
    fn bits(self) -> u128 {
        self as u128
    }
}

impl Item for u8 {
    const GUARD: u8 = 0xC3;
    fn bits(self) -> u128 {
        self as u128
    }
}

impl<T: Item> Lent<T> {
    pub fn of(items: &[T], how: Lending) -> Self {
        // 32 bytes on either side
        let guards = if how == Lending::Guarded { 32 / size_of::<T>() } else { 0 };
        let mut memory = Vec::with_capacity(items.len() + 2 * guards);
        memory.resize(guards, T::GUARD);
        memory.extend_from_slice(items);
        memory.resize(items.len() + 2 * guards, T::GUARD);
        Lent { memory, guards }
    }

    /// Where the slice begins, to write to it, and its length.
    pub fn to_write(&mut self) -> (*mut T, usize) {
        (self.pointer_to_write(), self.len())
    }

    pub fn pointer_to_write(&mut self) -> *mut T {
        let guards = self.guards;
        // of the whole, so that a write beyond the slice stays within what this program owns
        self.memory.as_mut_ptr().wrapping_add(guards)
    }

    pub fn len(&self) -> usize {
        self.memory.len() - 2 * self.guards
    }

    pub fn items(&self) -> &[T] {
        &self.memory[self.guards..self.memory.len() - self.guards]
    }

    pub fn guards_stand(&self) -> bool {
        let (before, rest) = self.memory.split_at(self.guards);
        let (_, after) = rest.split_at(rest.len() - self.guards);
        before.iter().chain(after).all(|x| x.bits() == T::GUARD.bits())
    }

    /// Whether the slice is as it was lent, and the guards stand.
    pub fn is_still(&self, items: &[T]) -> bool {
        self.guards_stand() && self.items().iter().map(|x| x.bits()).eq(items.iter().map(|x| x.bits()))
    }
}
