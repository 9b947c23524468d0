//! Memory lent to the library, with guards on both sides that no call may change.

use std::fmt::Debug;

pub type Checked<T = ()> = Result<T, String>;

const GUARD_BYTES: usize = 64;

/// Data starts at this many different offsets from an aligned address.
const SHIFTS: usize = 16;

fn guard_byte(place: usize) -> u8 {
    (place as u8).wrapping_mul(37) ^ 0xA5
}

/// A byte string lent to the library.
pub struct Lent {
    memory: Vec<u8>,
    start: usize,
    as_lent: Vec<u8>,
}

impl Lent {
    /// Lends a copy of `data`; `shift` chooses its alignment.
    pub fn new(data: Vec<u8>, shift: usize) -> Lent {
        let start = GUARD_BYTES + shift % SHIFTS;
        let end = start + data.len();
        let mut memory = Vec::with_capacity(end + GUARD_BYTES);
        memory.extend((0..start).map(guard_byte));
        memory.extend_from_slice(&data);
        memory.extend((end..end + GUARD_BYTES).map(guard_byte));
        Lent {
            memory,
            start,
            as_lent: data,
        }
    }

    pub fn len(&self) -> usize {
        self.as_lent.len()
    }

    pub fn data(&self) -> &[u8] {
        &self.memory[self.start..self.start + self.len()]
    }

    /// The address to hand over. It is made from the whole memory and by `&mut`, for read-only
    /// lists too, so that the compiler counts on no byte of it staying as it is. The address of an
    /// empty string may be anything.
    pub fn address(&mut self) -> *mut u8 {
        let address = self.memory.as_mut_ptr().wrapping_add(self.start);
        match (self.len(), self.start % 3) {
            (0, 0) => std::ptr::null_mut(),
            (0, 1) => std::ptr::without_provenance_mut(1),
            _ => address,
        }
    }

    /// The guards are whole.
    pub fn guarded(&self, name: &str) -> Checked {
        let end = self.start + self.len();
        let mut outside = (0..self.start).chain(end..self.memory.len());
        match outside.find(|&place| self.memory[place] != guard_byte(place)) {
            None => Ok(()),
            Some(place) => Err(format!(
                "{name} ({} bytes): the library wrote outside, at byte {}",
                self.len(),
                place as i64 - self.start as i64
            )),
        }
    }

    /// The guards are whole, the data begins with `front` and goes on as it was lent.
    pub fn holds(&self, name: &str, front: &[u8]) -> Checked {
        self.guarded(name)?;
        let (written, left) = self.data().split_at(front.len());
        let length = self.len();
        same_bytes("what is written", written, front)
            .map_err(|difference| format!("{name} ({length} bytes), {difference}"))?;
        let start = front.len();
        same_bytes("what is left", left, &self.as_lent[start..]).map_err(|difference| {
            format!("{name} ({length} bytes) from byte {start}, {difference}")
        })
    }
}

/// A type of number that the library stores through a pointer.
pub trait Number: Copy + PartialEq + Debug {
    const GUARD: Self;
}

impl Number for u8 {
    const GUARD: u8 = 0xA5;
}

impl Number for i32 {
    const GUARD: i32 = 0x5AA5_C33C;
}

impl Number for usize {
    const GUARD: usize = 0x5AA5_C33C_1DE2_B44B;
}

const CELLS: usize = 17;

/// A number lent to the library, in the middle of guard numbers.
pub struct LentNumber<T> {
    cells: [T; CELLS],
}

impl<T: Number> LentNumber<T> {
    pub fn new() -> LentNumber<T> {
        LentNumber {
            cells: [T::GUARD; CELLS],
        }
    }

    /// The address to hand over, made from all cells as in [`Lent::address`].
    pub fn address(&mut self) -> *mut T {
        self.cells.as_mut_ptr().wrapping_add(CELLS / 2)
    }

    pub fn value(&self) -> T {
        self.cells[CELLS / 2]
    }

    pub fn guarded(&self, name: &str) -> Checked {
        let mut expected = [T::GUARD; CELLS];
        expected[CELLS / 2] = self.value();
        same(
            &format!("{name} and the numbers around it"),
            self.cells,
            expected,
        )
    }

    pub fn holds(&self, name: &str, value: T) -> Checked {
        self.guarded(name)?;
        same(name, self.value(), value)
    }
}

/// What the library and the oracle say of one thing is the same.
pub fn same<T: PartialEq + Debug>(what: &str, library: T, oracle: T) -> Checked {
    if library == oracle {
        return Ok(());
    }
    Err(format!(
        "{what}\n  library: {library:?}\n  oracle:  {oracle:?}"
    ))
}

/// The same for byte strings, with the first element that differs.
pub fn same_bytes(what: &str, library: &[u8], oracle: &[u8]) -> Checked {
    if library == oracle {
        return Ok(());
    }
    same("the length", library.len(), oracle.len())?;
    let mut pairs = library.chunks(2).zip(oracle.chunks(2)).enumerate();
    let differ = pairs.find(|(_, (of_library, of_oracle))| of_library != of_oracle);
    let (element, (of_library, of_oracle)) = differ.unwrap();
    Err(format!(
        "{what}: element {element}\n  library: {}\n  oracle:  {}",
        element_text(of_library),
        element_text(of_oracle),
    ))
}

/// The bytes of an element and what they say as a signed number.
fn element_text(bytes: &[u8]) -> String {
    match *bytes {
        [low, high] => format!("{bytes:?}, that is {}", i16::from_le_bytes([low, high])),
        _ => format!("{bytes:?}"),
    }
}
