//! Lists without their lines in error.

use crate::errors::Reason;
use crate::input::begun::FileContent;
use crate::input::files::Sources;
use crate::input::keeping::{Kept, Said, list_named};
use cidr_io::source::Source;
use cidr_lists::records::ListForm;

/// A list in memory, or a file that is no list.
pub enum GoodReader<'a, S: Source> {
    Held(&'a [u8]),
    Beside(S),
}

impl<S: Source> Source for GoodReader<'_, S> {
    #[inline]
    fn read_some(&mut self, buf: &mut [u8]) -> Option<usize> {
        match self {
            GoodReader::Held(bytes) => bytes.read_some(buf),
            GoodReader::Beside(source) => source.read_some(buf),
        }
    }
}

/// Lists that were read whole, each of whose lines in error is left empty, and where other files are read from.
pub struct GoodLists<'a, F: Sources> {
    pub lists: &'a [Kept<'a>],
    pub sources: &'a F,
    pub list_form: ListForm,
}

impl<'a, F: Sources> Sources for GoodLists<'a, F> {
    type Reader = GoodReader<'a, F::Reader>;

    fn open(&self, name: &str) -> Result<Self::Reader, Reason> {
        let lists = self.lists;
        match list_named(lists, name) {
            Some(list) => Ok(GoodReader::Held(list.good_bytes())),
            None => match self.sources.open(name) {
                Ok(reader) => Ok(GoodReader::Beside(reader)),
                Err(why) => Err(why),
            },
        }
    }

    #[inline]
    fn list_form(&self) -> ListForm {
        self.list_form
    }

    #[inline]
    fn kept(&self, _name: &str) -> Option<&FileContent<Said>> {
        None
    }
}
