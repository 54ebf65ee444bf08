//! A watch of a trace that goes on.
use super::raw::RawWatch;
use super::trace::{numbers_of, numbers_of_reply};
use super::{Fault, Operation, Reply, Unrestored};
use std::error::Error;
use std::fmt;
use torusmem_sys as sys;

/// Why an event isn't taken. The watch goes on as if it had not been given.
#[derive(Clone, Copy, Debug, PartialEq, Eq, Hash)]
pub enum NotTaken {
    /// With the event no order explains the trace any more, and without it one does.
    NotLinearizable,
    /// It isn't decided: the word has more configurations than were allowed.
    TooMany,
    /// There is no such address, or no open operation of this number.
    NoSuch,
    /// A request for memory was refused (F12).
    Memory,
}

impl fmt::Display for NotTaken {
    fn fmt(&self, f: &mut fmt::Formatter) -> fmt::Result {
        match self {
            NotTaken::NotLinearizable => write!(f, "not linearizable"),
            NotTaken::TooMany => write!(f, "undecided: more configurations than were allowed"),
            NotTaken::NoSuch => write!(f, "no such address, or no such open operation"),
            NotTaken::Memory => Fault::Memory.fmt(f),
        }
    }
}

impl Error for NotTaken {}

/// A watch of a trace that goes on: what [`linearize`](crate::linearize) judges at the end, it judges at each event, so
/// that a host checks itself while it runs. Its memory follows the operations that are open.
///
/// ```
/// use torusmem::{NotTaken, Operation, Reply, Watch};
///
/// let mut watch = Watch::begin(&[0; 8])?;
/// let store = watch.issue(5, Operation::Store(17))?;
/// let load = watch.issue(5, Operation::Load)?;
/// watch.answer(load, Reply::Old(17))?;
/// let later = watch.issue(5, Operation::Load)?;
/// assert_eq!(watch.answer(later, Reply::Old(0)), Err(NotTaken::NotLinearizable));
/// watch.answer(later, Reply::Old(17))?;
/// watch.answer(store, Reply::Ok)?;
/// # Ok::<(), NotTaken>(())
/// ```
///
/// It may go from thread to thread, and isn't shared:
///
/// ```
/// fn sent<T: Send>() {}
/// sent::<torusmem::Watch>();
/// ```
///
/// ```compile_fail,E0277
/// fn shared<T: Sync>() {}
/// shared::<torusmem::Watch>();
/// ```
pub struct Watch {
    raw: RawWatch,
    next: u64,
}

impl fmt::Debug for Watch {
    fn fmt(&self, f: &mut fmt::Formatter) -> fmt::Result {
        f.debug_struct("Watch").finish_non_exhaustive()
    }
}

impl Watch {
    /// A watch before its first event, over a memory that opens with these words. The only reason is that memory is refused.
    pub fn begin(opening: &[u64]) -> Result<Watch, NotTaken> {
        let mut raw = RawWatch::empty();
        taken(raw.begin(opening))?;
        Ok(Watch { raw, next: 0 })
    }

    /// Another watch that has seen what this one has, and goes on by itself. The only reason is that memory is refused.
    ///
    /// ```
    /// use torusmem::{Operation, Reply, Watch};
    ///
    /// let mut watch = Watch::begin(&[0; 8])?;
    /// let load = watch.issue(5, Operation::Load)?;
    /// let mut other = watch.cloned()?;
    /// assert!(watch.answer(load, Reply::Old(1)).is_err() && other.answer(load, Reply::Old(0)).is_ok());
    /// # Ok::<(), torusmem::NotTaken>(())
    /// ```
    pub fn cloned(&mut self) -> Result<Watch, NotTaken> {
        let mut raw = RawWatch::empty();
        taken(self.raw.clone_to(&mut raw))?;
        Ok(Watch { raw, next: self.next })
    }

    /// The bytes of what it knows, of which [`Watch::restored`] makes a watch that answers every later event as this one
    /// would. They follow what is open, and not the length of the trace. The only reason is that memory is refused.
    ///
    /// ```
    /// use torusmem::{Operation, Reply, Watch};
    ///
    /// let mut watch = Watch::begin(&[0; 8])?;
    /// let load = watch.issue(5, Operation::Load)?;
    /// let mut other = Watch::restored(&watch.save()?).expect("it was saved");
    /// assert!(other.answer(load, Reply::Old(1)).is_err() && other.answer(load, Reply::Old(0)).is_ok());
    /// assert_eq!(other.issue(5, Operation::Load)?, watch.issue(5, Operation::Load)?);
    /// # Ok::<(), torusmem::NotTaken>(())
    /// ```
    pub fn save(&mut self) -> Result<Vec<u8>, NotTaken> {
        let asked = self.raw.save(&mut []);
        if asked.code != sys::TORUSMEM_SHORT {
            taken(asked)?;
        }
        let mut bytes = vec![0; asked.value as usize];
        taken(self.raw.save(&mut bytes))?;
        Ok(bytes)
    }

    /// The watch that was saved as these bytes.
    pub fn restored(bytes: &[u8]) -> Result<Watch, Unrestored> {
        let mut raw = RawWatch::empty();
        let said = raw.restore(bytes);
        match said.code {
            sys::TORUSMEM_OK => Ok(Watch { raw, next: said.value }),
            sys::TORUSMEM_BAD_RECORD => Err(Unrestored::Byte(said.value)),
            _ => Err(Unrestored::Fault(Fault::Memory)),
        }
    }

    /// Takes the issue of an operation, and gives the number by which its answer names it.
    pub fn issue(&mut self, address: u32, operation: Operation) -> Result<u64, NotTaken> {
        let number = self.next;
        let (operation, first, second) = numbers_of(operation);
        taken(self.raw.issue(number, operation, address, (first, second)))?;
        self.next += 1;
        Ok(number)
    }

    /// Takes the answer to the operation of a number, and looks at most at 1000000 configurations of its word at once,
    /// as the program does. That decides it while at most 9 operations are open on one word.
    pub fn answer(&mut self, number: u64, reply: Reply) -> Result<(), NotTaken> {
        self.answer_within(number, reply, 1_000_000)
    }

    /// The same with at most so many configurations.
    pub fn answer_within(&mut self, number: u64, reply: Reply, configurations: u64) -> Result<(), NotTaken> {
        let (has_old, old) = numbers_of_reply(reply);
        taken(self.raw.answer(number, has_old, old, configurations))
    }
}

fn taken(said: sys::torusmem_outcome) -> Result<(), NotTaken> {
    match said.code {
        sys::TORUSMEM_OK => Ok(()),
        sys::TORUSMEM_NOT_LINEARIZABLE => Err(NotTaken::NotLinearizable),
        sys::TORUSMEM_TOO_MANY => Err(NotTaken::TooMany),
        sys::TORUSMEM_FAULT_MEMORY => Err(NotTaken::Memory),
        _ => Err(NotTaken::NoSuch),
    }
}
