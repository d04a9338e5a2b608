//! The operation `cover`: the shortest list of networks for the addresses of given ones.

use crate::answer::Answer;
use crate::line_error::{LineError, Outcome};
use crate::tables::Key;
use crate::tokens::Tokens;
use cidr_table::alloc::Global;
use cidr_table::LpmTable;

/// Answers the least cover of the networks that are left of the line, or `none` where there is none.
pub fn answer<C: Key>(tokens: &mut Tokens<'_>, answer: &mut Answer) -> Outcome {
    let table = keys::<C>(tokens)?;
    let mut networks = vec![C::null(); table.len()];
    let count = table.least_cover(&mut networks);
    if count == 0 {
        return answer.word("none");
    }
    networks.truncate(count);
    for network in &networks {
        answer.value(network)?;
    }
    Ok(())
}

/// A table whose keys are the networks that are left of the line.
fn keys<C: Key>(tokens: &mut Tokens<'_>) -> Result<LpmTable<C, usize>, LineError> {
    let mut table = LpmTable::new(Global);
    for place in 0..usize::MAX {
        if tokens.is_empty() {
            break;
        }
        if table.insert(tokens.value::<C>()?, place).is_err() {
            return Err(LineError::OutOfMemory);
        }
    }
    Ok(table)
}
