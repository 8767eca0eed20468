//! Typed values to numbers and back. A value is walked over number by number, in the order of docs/LAYOUT.md; a cursor takes each number
//! down, puts another in its place, or notes what it is. So the order of a record stands once, for both ways.

use crate::numbers::Cell;

/// What goes along the numbers of a value: it is shown each number, and gives the one that the value has from then on.
pub(crate) trait Cursor {
    fn number(&mut self, cell: Cell, number: i64) -> i64;
}

/// A value that is made of numbers.
pub(crate) trait Walk {
    fn walk<C: Cursor>(&mut self, c: &mut C);
}

/// What numbers are put into: a value that is missing, or whose numbers are all 0. It need not be one that can be written.
pub(crate) trait Blank {
    fn blank() -> Self;
}

impl Walk for u32 {
    fn walk<C: Cursor>(&mut self, c: &mut C) {
        *self = u32::try_from(c.number(Cell::Plain, i64::from(*self))).unwrap_or(u32::MAX);
    }
}

impl Walk for i32 {
    fn walk<C: Cursor>(&mut self, c: &mut C) {
        *self = i32::try_from(c.number(Cell::Signed, i64::from(*self))).unwrap_or(i32::MAX);
    }
}

/// A letter is its byte; a number that is no byte is no letter, 0.
impl Walk for u8 {
    fn walk<C: Cursor>(&mut self, c: &mut C) {
        *self = u8::try_from(c.number(Cell::Plain, i64::from(*self))).unwrap_or(0);
    }
}

/// A mark, and the value, which is blank where it is missing.
impl<T: Walk + Blank> Walk for Option<T> {
    fn walk<C: Cursor>(&mut self, c: &mut C) {
        let there = c.number(Cell::Mark, i64::from(self.is_some())) == 1;
        let mut value = self.take().unwrap_or_else(T::blank);
        value.walk(c);
        *self = if there { Some(value) } else { None };
    }
}

impl<T: Walk, const N: usize> Walk for [T; N] {
    fn walk<C: Cursor>(&mut self, c: &mut C) {
        for one in self {
            one.walk(c);
        }
    }
}

/// A number is blank as 0.
macro_rules! zero_is_blank {
    ($($held:ty)*) => {
        $(impl Blank for $held {
            fn blank() -> Self {
                0
            }
        })*
    };
}
zero_is_blank!(u32 i32 u8);

impl<T> Blank for Option<T> {
    fn blank() -> Self {
        None
    }
}

impl<T: Blank + Copy, const N: usize> Blank for [T; N] {
    fn blank() -> Self {
        [T::blank(); N]
    }
}

/// Declares a struct whose numbers are those of its fields in the order in which they stand.
macro_rules! in_order {
    ($(#[$about:meta])* pub struct $name:ident { $($(#[$says:meta])* pub $field:ident: $held:ty,)* }) => {
        $(#[$about])*
        pub struct $name { $($(#[$says])* pub $field: $held,)* }

        impl crate::walk::Blank for $name {
            fn blank() -> Self {
                $name { $($field: crate::walk::Blank::blank(),)* }
            }
        }

        impl crate::walk::Walk for $name {
            fn walk<C: crate::walk::Cursor>(&mut self, c: &mut C) {
                $(crate::walk::Walk::walk(&mut self.$field, c);)*
            }
        }
    };
}
pub(crate) use in_order;

/// Takes the numbers of a value down.
struct Down<'a> {
    numbers: &'a mut [i64],
    at: usize,
}

impl Cursor for Down<'_> {
    fn number(&mut self, _: Cell, number: i64) -> i64 {
        self.numbers[self.at] = number;
        self.at += 1;
        number
    }
}

/// Puts numbers in the place of a value's own.
struct Up<'a> {
    numbers: &'a [i64],
    at: usize,
}

impl Cursor for Up<'_> {
    fn number(&mut self, _: Cell, _: i64) -> i64 {
        self.at += 1;
        self.numbers[self.at - 1]
    }
}

/// Notes what the numbers of a value are.
struct Noting {
    cells: Vec<Cell>,
}

impl Cursor for Noting {
    fn number(&mut self, cell: Cell, number: i64) -> i64 {
        self.cells.push(cell);
        number
    }
}

/// Stores the numbers of a value, and gives how many they are.
pub(crate) fn take_down(mut value: impl Walk, numbers: &mut [i64]) -> usize {
    let mut down = Down { numbers, at: 0 };
    value.walk(&mut down);
    down.at
}

/// The value with these numbers in place of its own.
pub(crate) fn put_up<T: Walk>(mut value: T, numbers: &[i64]) -> T {
    value.walk(&mut Up { numbers, at: 0 });
    value
}

/// What each number of a value is.
pub(crate) fn cells_of(mut value: impl Walk) -> Vec<Cell> {
    let mut noting = Noting { cells: Vec::new() };
    value.walk(&mut noting);
    noting.cells
}
