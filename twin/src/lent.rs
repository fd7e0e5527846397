//! What is lent to the library: copies of the tables and buffers, with guard entries around them.

use crate::tables::Tables;

/// Entries on each side of a lent buffer that the library must not write.
const GUARD: usize = 64;

/// A copy of a table or buffer between guard entries.
pub struct Lent<T> {
    name: &'static str,
    entries: Vec<T>,
    pub length: usize,
    guard: T,
}

impl<T: Copy + PartialEq> Lent<T> {
    pub fn new(name: &'static str, content: &[T], guard: T) -> Lent<T> {
        let mut entries = vec![guard; content.len() + 2 * GUARD];
        entries[GUARD..GUARD + content.len()].copy_from_slice(content);
        Lent { name, entries, length: content.len(), guard }
    }

    pub fn pointer(&mut self) -> *mut T {
        self.entries[GUARD..].as_mut_ptr()
    }

    /// The content after the call, or the error where a guard entry was written.
    fn content(&self) -> Result<&[T], String> {
        let (before, rest) = self.entries.split_at(GUARD);
        let (content, after) = rest.split_at(self.length);
        if before.iter().chain(after).any(|entry| *entry != self.guard) {
            return Err(format!("memory beside the {} was written", self.name));
        }
        Ok(content)
    }

    /// Gives the content after the call back.
    pub fn give_back(&self, content: &mut [T]) -> Result<(), String> {
        content.copy_from_slice(self.content()?);
        Ok(())
    }

    /// The error where an argument that is only read, or a guard entry beside it, was written.
    pub fn unwritten(&self, content: &[T]) -> Result<(), String> {
        if self.content()? == content { Ok(()) } else { Err(format!("the {} was written", self.name)) }
    }
}

/// The five tables as they are lent to the library.
pub struct LentTables {
    pub positions: Lent<i32>,
    pub corners: Lent<u32>,
    pub links: Lent<u32>,
    pub generations: Lent<u8>,
    pub locks: Lent<u8>,
}

pub const MESH: [&str; 5] = ["positions", "corners", "links", "generations", "locks"];
pub const SPARES: [&str; 5] = ["spare positions", "spare corners", "spare links", "spare generations", "spare locks"];

/// A call of the function named, with the five tables as pointers and lengths, then what follows, the spare tables
/// after a semicolon, and what comes after these after another.
macro_rules! call {
    ($function:ident, $lent:expr $(, $argument:expr)* $(; $spares:expr $(; $($last:expr),*)?)?) => {
        // SAFETY: every pointer is to as many entries as the length beside it says, and no two overlap.
        unsafe {
            $function(
                $lent.positions.pointer(),
                $lent.positions.length,
                $lent.corners.pointer(),
                $lent.corners.length,
                $lent.links.pointer(),
                $lent.links.length,
                $lent.generations.pointer(),
                $lent.generations.length,
                $lent.locks.pointer(),
                $lent.locks.length
                $(, $argument)*
                $(,
                    $spares.positions.pointer(),
                    $spares.positions.length,
                    $spares.corners.pointer(),
                    $spares.corners.length,
                    $spares.links.pointer(),
                    $spares.links.length,
                    $spares.generations.pointer(),
                    $spares.generations.length,
                    $spares.locks.pointer(),
                    $spares.locks.length
                    $($(, $last)*)?
                )?
            )
        }
    };
}

pub(crate) use call;

impl LentTables {
    pub fn new([positions, corners, links, generations, locks]: [&'static str; 5], tables: &Tables) -> LentTables {
        LentTables {
            positions: Lent::new(positions, &tables.positions, 0x5A5A_5A5A),
            corners: Lent::new(corners, &tables.corners, 0x5B5B_5B5B),
            links: Lent::new(links, &tables.links, 0x5C5C_5C5C),
            generations: Lent::new(generations, &tables.generations, 0x5D),
            locks: Lent::new(locks, &tables.locks, 0x01),
        }
    }

    pub fn give_back(&self, tables: &mut Tables) -> Result<(), String> {
        self.positions.give_back(&mut tables.positions)?;
        self.corners.give_back(&mut tables.corners)?;
        self.links.give_back(&mut tables.links)?;
        self.generations.give_back(&mut tables.generations)?;
        self.locks.give_back(&mut tables.locks)
    }
}
