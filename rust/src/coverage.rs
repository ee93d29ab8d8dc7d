/// Which functions were called at all.
///
/// ```
/// use shaftglimmer::{Refusal, Session, Shape, Way};
///
/// let mut session = Session::fresh(&Shape::new(3, 2, 8)?)?;
/// session.arrive(Way::Clean, &mut [5, 2, 7, 3, 1, 2, 6, 3, 5]);
/// let coverage = session.cover()?;
/// assert_eq!(coverage.functions(), 2);
/// assert!(coverage.contains(5) && !coverage.contains(6));
/// assert_eq!(coverage.iter().collect::<Vec<u8>>(), [3, 5]);
/// # Ok::<(), Refusal>(())
/// ```
#[derive(Clone, Copy, Debug, PartialEq, Eq)]
pub struct Coverage {
    bytes: [u8; 256],
    functions: u32,
}

impl Coverage {
    /// What the library has written and answered.
    pub(crate) fn written(bytes: [u8; 256], functions: u32) -> Coverage {
        Coverage { bytes, functions }
    }

    /// How many functions were called.
    pub const fn functions(&self) -> u32 {
        self.functions
    }

    /// Whether this function was called.
    pub fn contains(&self, function: u8) -> bool {
        self.bytes.get(usize::from(function)) == Some(&1)
    }

    /// The functions that were called, rising.
    pub fn iter(&self) -> impl Iterator<Item = u8> + '_ {
        (0..=u8::MAX).filter(|&function| self.contains(function))
    }

    /// A byte for each function, 1 or 0.
    pub const fn as_bytes(&self) -> &[u8; 256] {
        &self.bytes
    }
}
