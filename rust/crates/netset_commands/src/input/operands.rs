//! Reading an operand that is a network, an address or the name of a file.

use crate::errors::{ArgumentError, CommandError};
use crate::input::files::Sources;
use crate::input::several::read_file;
use cidr::IpCidr;
use cidr_io::memory::Memory;
use cidr_lists::sets::Sets;

/// The error of reading a list, where it is that of an operand that is no network and no address.
fn operand_error<'a>(operand: &'a str, error: CommandError<'a>) -> CommandError<'a> {
    match error {
        CommandError::Input(_, _) => CommandError::Argument(operand, ArgumentError::Operand),
        CommandError::File(file, why) => CommandError::File(file, why),
        CommandError::Argument(text, why) => CommandError::Argument(text, why),
        CommandError::Line(file, number, fault) => CommandError::Line(file, number, fault),
        CommandError::NoMemory => CommandError::NoMemory,
        CommandError::Output => CommandError::Output,
    }
}

/// The addresses of the list of a file. A file that can't be read is an argument that is wrong.
#[inline]
pub fn read_listed<'a, M: Memory, F: Sources>(
    memory: &mut M,
    sources: &F,
    operand: &'a str,
) -> Result<Sets, CommandError<'a>> {
    match read_file(memory, sources, operand) {
        Ok(sets) => Ok(sets),
        Err(e) => Err(operand_error(operand, e)),
    }
}

/// The addresses of an operand: those of the network or the address that it reads as, and else those of the list of the
/// file of this name.
pub fn read_operand<'a, M: Memory, F: Sources>(
    memory: &mut M,
    sources: &F,
    operand: &'a str,
) -> Result<Sets, CommandError<'a>> {
    match operand.parse::<IpCidr>() {
        Ok(network) => {
            let sets = Sets::of_network(memory.alloc(), &network);
            let sets = memory.watch(sets)?;
            Ok(sets)
        }
        Err(_) => read_listed(memory, sources, operand),
    }
}
