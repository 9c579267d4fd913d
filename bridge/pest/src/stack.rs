use alloc::vec::Vec;
use core::ops::{Index, Range};

/// What takes back a change of a stack.
#[derive(Debug)]
enum Undo<T> {
    /// An item was pushed.
    Pushed,
    /// This item was popped.
    Popped(T),
}

/// A stack with snapshots, which it may go back to.
///
/// It keeps what takes back each change since the first snapshot, but not of an item that was pushed and popped after the
/// last one. So a change is kept once and taken back once at most.
#[derive(Debug)]
pub struct Stack<T: Clone> {
    items: Vec<T>,
    /// What takes back the changes, the last one last.
    undo: Vec<Undo<T>>,
    /// How many changes were kept at each snapshot.
    snapshots: Vec<usize>,
}

impl<T: Clone> Stack<T> {
    /// Makes an empty stack.
    pub fn new() -> Stack<T> {
        Stack { items: Vec::new(), undo: Vec::new(), snapshots: Vec::new() }
    }

    /// Returns whether the stack has no items.
    pub fn is_empty(&self) -> bool {
        self.items.is_empty()
    }

    /// Returns the item on top.
    pub fn peek(&self) -> Option<&T> {
        self.items.last()
    }

    /// Puts an item on top.
    pub fn push(&mut self, item: T) {
        self.items.push(item);
        if !self.snapshots.is_empty() {
            self.undo.push(Undo::Pushed);
        }
    }

    /// Takes the item from the top.
    pub fn pop(&mut self) -> Option<T> {
        let item = self.items.pop()?;
        if let Some(snapshot) = self.snapshots.last() {
            match self.undo.last() {
                Some(Undo::Pushed) if self.undo.len() > *snapshot => drop(self.undo.pop()),
                _ => self.undo.push(Undo::Popped(item.clone())),
            }
        }
        Some(item)
    }

    /// Returns how many items the stack has.
    pub fn len(&self) -> usize {
        self.items.len()
    }

    /// Takes a snapshot.
    pub fn snapshot(&mut self) {
        self.snapshots.push(self.undo.len());
    }

    /// Drops the last snapshot, if there is one. The items stay.
    pub fn clear_snapshot(&mut self) {
        self.snapshots.pop();
        if self.snapshots.is_empty() {
            self.undo.clear();
        }
    }

    /// Goes back to the last snapshot and drops it. Without one the stack is empty then.
    pub fn restore(&mut self) {
        let Some(snapshot) = self.snapshots.pop() else {
            self.items.clear();
            return;
        };
        for change in self.undo.drain(snapshot..).rev() {
            match change {
                Undo::Pushed => drop(self.items.pop()),
                Undo::Popped(item) => self.items.push(item),
            }
        }
    }
}

impl<T: Clone> Default for Stack<T> {
    fn default() -> Self {
        Stack::new()
    }
}

impl<T: Clone> Index<Range<usize>> for Stack<T> {
    type Output = [T];

    fn index(&self, range: Range<usize>) -> &[T] {
        &self.items[range]
    }
}

#[cfg(test)]
mod tests {
    use super::*;

    #[test]
    fn it_goes_back_to_each_snapshot() {
        // Each step of a number in base 5: push, pop, snapshot, clear, restore; a model keeps whole copies.
        for number in 0..5_usize.pow(8) {
            let (mut stack, mut items, mut copies) = (Stack::new(), Vec::new(), Vec::new());
            let mut steps = number;
            for step in 0..8 {
                match steps % 5 {
                    0 => {
                        stack.push(step);
                        items.push(step);
                    }
                    1 => assert_eq!(stack.pop(), items.pop()),
                    2 => {
                        stack.snapshot();
                        copies.push(items.clone());
                    }
                    3 => {
                        stack.clear_snapshot();
                        copies.pop();
                    }
                    _ => {
                        stack.restore();
                        items = copies.pop().unwrap_or_default();
                    }
                }
                steps /= 5;
                assert_eq!(stack[0..stack.len()], items[..], "{number}");
            }
        }
    }
}
