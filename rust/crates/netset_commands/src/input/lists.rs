//! Lines of lists of networks.

use crate::errors::ListReadError;
use crate::input::lines::LineKind;
use cidr_io::lines::is_too_long;
use cidr_io::memory::Memory;
use cidr_lists::errors::LineError;
use cidr_lists::lists::Lists;
use cidr_lists::records::{ListForm, content_in};

/// Adds the networks that a line says.
pub fn add_list_line<M: Memory>(
    memory: &mut M,
    list_form: ListForm,
    number: u64,
    line: &[u8],
    lists: &mut Lists,
) -> Result<(), ListReadError> {
    if is_too_long(line) {
        return Err(ListReadError::Line(number, LineError::TooLong));
    }
    match content_in(list_form, line) {
        Ok(content) => {
            let pushed = lists.push_content(memory.alloc(), &content);
            memory.watch(pushed)?;
            Ok(())
        }
        Err(e) => Err(ListReadError::Line(number, e)),
    }
}

/// Lines that are networks, addresses or ranges.
#[derive(Clone, Copy)]
pub struct NetworkLines;

impl LineKind for NetworkLines {
    type Said = Lists;

    #[inline]
    fn add_line<M: Memory>(
        &self,
        memory: &mut M,
        list_form: ListForm,
        number: u64,
        line: &[u8],
        said: &mut Lists,
    ) -> Result<(), ListReadError> {
        add_list_line(memory, list_form, number, line, said)
    }
}
