//! The table of the commands: names, options, operands and help.

use crate::commands::describe::Description;
use crate::commands::matching::has;
use crate::commands::operations::Operation;

/// What a command does.
#[derive(Clone, Copy)]
pub enum Verb {
    Lists(Operation),
    Diff,
    Same,
    Free,
    Acl,
    Check,
    Which,
    Match,
    Look,
    Compile,
    Smallest,
    Describe(Description),
    Class,
    Show,
    Split,
    Nth,
    Help,
    Version,
}

/// The commands, in their order on the page.
pub static COMMANDS: [Verb; 24] = [
    Verb::Lists(Operation::Merge),
    Verb::Lists(Operation::Minus),
    Verb::Lists(Operation::And),
    Verb::Lists(Operation::Not),
    Verb::Lists(Operation::Ranges),
    Verb::Lists(Operation::Count),
    Verb::Diff,
    Verb::Same,
    Verb::Free,
    Verb::Acl,
    Verb::Check,
    Verb::Which,
    Verb::Match,
    Verb::Look,
    Verb::Compile,
    Verb::Smallest,
    Verb::Describe(Description::Zones),
    Verb::Describe(Description::Masks),
    Verb::Class,
    Verb::Show,
    Verb::Split,
    Verb::Nth,
    Verb::Help,
    Verb::Version,
];

const MERGE: &str =
    "netset merge [FILE..]   the shortest list of networks that has the addresses of all the lists\nnetset nets [FILE..]    the same as merge\n";

const MINUS: &str = "netset minus A B..      the addresses of A that no other list has\n";

const AND: &str = "netset and A B..        the addresses that each of the lists has\n";

const NOT: &str =
    "netset not [FILE..]     the addresses of IPv4 and those of IPv6 that no list has\nnetset not --in NET [FILE..]\n                        the addresses of a network that no list has\n";

const RANGES: &str =
    "netset ranges [FILE..]  the longest ranges of the addresses of all the lists, FIRST-LAST\n";

const COUNT: &str =
    "netset count [FILE..]   how many addresses of IPv4 and of IPv6 the lists have\n";

const DIFF: &str =
    "netset diff [--format plain|json] A B\n                        the networks that B adds to A, as +NET, and that it lacks, as -NET,\n                        or with json an object of JSON for each\n";

const SAME: &str =
    "netset same A B         the networks whose addresses have another value, or none, in the table B\n                        than in A, as -NET VALUE by A and +NET VALUE by B\n";

const FREE: &str =
    "netset free [--all] [--count N] POOL LEN [USED..]\n                        the first network of this prefix length in the addresses of a\n                        network or of a list that no list of USED has, --all all of\n                        them, --count the first N, which is below 2^64\n";

const ACL: &str =
    "netset acl [--shadowed] [--diff OLD] RULES\n                        the addresses that an access list permits, whose lines are permit NET\n                        and deny NET, and the first that has an address decides; --shadowed\n                        the rules that no address reaches, each with the earlier ones that\n                        cover it; --diff what is permitted more than by OLD, as +NET, and\n                        what less, as -NET, in the format plain or json\n";

const CHECK: &str =
    "netset check [FILE..]   what is found in the lists, whose lines may be hosts too: set host\n                        bits, other forms than the printed one, repeats, networks inside\n                        others, and halves of one network\n";

const WHICH: &str =
    "netset which ADDR [FILE..]\n                        the lines of the lists that have an address, which may be hosts too,\n                        and their networks\n";

const MATCH: &str =
    "netset match [--any] [--field N] [--separator C] [--header] [-v] [-c] [-q] LIST [FILE..]\n                        the lines of FILE whose first field lies in LIST, --field N whose\n                        field N does, and with it --separator C of fields with byte C between\n                        them and not white space; --any the lines that have an address of LIST\n                        anywhere; --header the first line too, which is a header; -v all\n                        the other lines, -c only their number, -q only the status; of more\n                        than one file each line behind its name and a colon\n";

const LOOK: &str =
    "netset look [--any] [--field N] [--separator C] [--header] [--keep] [--format plain|json] TABLE [FILE]\n                        the longest network of the first field of each line of FILE in the\n                        rows NET VALUE of TABLE, and its value; --field N of field N,\n                        with it --separator C of fields with byte C between them, --any of the first\n                        address anywhere; --keep writes the lines of FILE, each with the\n                        network and value behind it; --format json an object of JSON for\n                        each address, whose value has to be UTF-8; --header passes over the\n                        first line, a header, which --keep writes as it is\n";

const COMPILE: &str =
    "netset compile TABLE OUT\n                        writes the table into the file OUT, which look and match take in the\n                        place of TABLE and LIST, and read none of its lines\n";

const SMALLEST: &str =
    "netset smallest [--holes] TABLE\n                        the fewest rows NET VALUE that give each address the value that it has\n                        by the rows of TABLE, or none; with --holes a row may be NET -, whose\n                        addresses have no value, which - then is no value of\n";

const REVERSE: &str =
    "netset reverse NET|FILE the names in reverse DNS of an address, or of the zones that networks\n                        are delegated in\n";

const MASK: &str =
    "netset mask NET|LEN|MASK|FILE\n                        the first address, the mask and the host mask of networks, or\n                        the masks of a prefix length, or the length of a mask\n";

const CLASS: &str =
    "netset class ADDR|FILE  what an address, or each address of a file, is for by the registries of\n                        IANA: the block that has it, its name and RFC, whether it is globally\n                        reachable, and the date of the registries\n";

const SHOW: &str =
    "netset show HOST        the network of a host: its ends, masks, length, family and usable\n                        addresses; the host's name in reverse DNS, and what its address is\n                        for, as class tells it\n";

const SPLIT: &str =
    "netset split NET|FILE LEN\n                        the networks of this prefix length inside a network, or inside the\n                        networks of a list\n";

const NTH: &str = "netset nth NET INDEX    the address of a network at an index, from 0 on\n";

const HELP: &str = "netset help [COMMAND]   this page, or what it says of a command\n";

const VERSION: &str =
    "netset --version        the version, and the logic in which the program is proved\n";

pub const HOST_BITS: &str =
    "--host-bits             a bit set behind the prefix of a network in a list is taken as unset,\n                        and is no error\n--masks                 a network in a list may have a mask in place of its prefix length, as\n                        192.0.2.0/255.255.255.0 and 192.0.2.0 0.0.0.255\n";

pub const KEEP_GOING: &str =
    "-k                      each line of a list in error is told, and not only the first\n";

pub const SKIP_BAD: &str =
    "--skip-bad              each line of a list in error is told, and the answer is that of the other\n                        lines; the status is 2 then, or 3; it goes neither with -k nor with -o\n";

pub const FORMS: &str =
    "--form NAME             how lines are read: those of lists by rir, the records in which the\n                        Internet registries publish what they have delegated; the rows of the\n                        tables of look, compile, same and smallest by pfx2as, an address, its\n                        prefix length and the value, as CAIDA has them, or by routes or\n                        routes6, as ip route prints those of IPv4 and of IPv6, and default is\n                        all addresses\n";

pub const TABLE_SEPARATOR: &str =
    "--table-separator C     byte C stands between the fields of a row, as in CSV without quotes,\n                        and not white space\n--table-fields N,M      field N of a row is the network and field M its value, from 1 on, and\n                        not the first one and the rest of the row\n--table-header          the first line of a table is a header, whatever it says; not for a file of\n                        look-ups, which has none\n";

pub const FORMAT: &str =
    "--format NAME           how the networks are written: plain, json, nft, ipset, iptables,\n                        cisco, juniper or bird\n--prefix TEXT, --suffix TEXT\n                        with the format plain, what stands in front of a network and behind\n";

pub const OUTPUT: &str =
    "-o FILE                 the answer is written to FILE, whole or not at all, and nothing to\n                        standard output; FILE may be among the lists\n";

/// What the page says below the commands.
pub const OPTIONS: &str =
    "\nOptions stand anywhere behind the command; those of one letter may be joined, as -vc:\n";

pub const LISTS: &str =
    "-h, --help              what this page says of the command\n--                      what is behind it are no options\n--host-bits and --masks are for commands that read lists, but check and which, -k for all that read\nlists but acl, --skip-bad for these but compile; --format, --prefix and --suffix are for merge,\nnets, minus, and, not, acl, free and split, -o for these, ranges, count, diff, same, smallest,\nreverse and mask, --form for all with --host-bits but acl, --table-separator, --table-fields and\n--table-header for look, compile, same and smallest.\n\nA line of a list is a network, an address or a range FIRST-LAST, and may end in a comment\nfrom # or ; on. The file - is the standard input, which is also read where no file is named.\nStatus: 0 done, 1 none, a difference or findings, 2 usage, a wrong argument, a file that\ncannot be read or a line in error, 3 output or memory.\n";

/// The commands, in their order on the page.
#[inline]
pub fn commands() -> &'static [Verb] {
    &COMMANDS
}

/// What is said of a command.
#[derive(Clone, Copy)]
pub struct Row {
    pub name: &'static str,
    /// Its options that have no value.
    pub options: &'static [&'static str],
    /// Those that have one.
    values: &'static [&'static str],
    /// The operands that it needs, by their names on the page.
    pub needed: &'static [&'static str],
    /// How many operands it takes at most; `None` where any more may follow.
    pub most: Option<usize>,
    /// What the page says of it.
    pub about: &'static str,
}

/// The options without a value of the commands that read lists of networks, of the others that read lists, and of all others.
const LIST_OPTIONS: &[&str] = &["--host-bits", "--masks", "-k", "--skip-bad", "-h", "--help"];

const KEEP_OPTIONS: &[&str] = &["-k", "--skip-bad", "-h", "--help"];

const HELP_OPTIONS: &[&str] = &["-h", "--help"];

/// The options with a value of the commands that write networks: the form of lists, how networks are written, and the file that
/// the answer is written to.
const LIST_VALUES: &[&str] = &["--form", "--format", "--prefix", "--suffix", "-o"];

/// The operands of the commands that need two lists.
const TWO_LISTS: &[&str] = &["A", "B"];

/// The row of a command.
pub fn row_of(command: Verb) -> Row {
    match command {
        Verb::Lists(Operation::Merge) => Row {
            name: "merge", options: LIST_OPTIONS, values: LIST_VALUES,
            needed: &[], most: None, about: MERGE,
        },
        Verb::Lists(Operation::Minus) => Row {
            name: "minus", options: LIST_OPTIONS, values: LIST_VALUES,
            needed: TWO_LISTS, most: None, about: MINUS,
        },
        Verb::Lists(Operation::And) => Row {
            name: "and", options: LIST_OPTIONS, values: LIST_VALUES,
            needed: TWO_LISTS, most: None, about: AND,
        },
        Verb::Lists(Operation::Not) => Row {
            name: "not", options: LIST_OPTIONS, values: &["--in", "--form", "--format", "--prefix", "--suffix", "-o"],
            needed: &[], most: None, about: NOT,
        },
        Verb::Lists(Operation::Ranges) => Row {
            name: "ranges", options: LIST_OPTIONS, values: &["--form", "-o"],
            needed: &[], most: None, about: RANGES,
        },
        Verb::Lists(Operation::Count) => Row {
            name: "count", options: LIST_OPTIONS, values: &["--form", "-o"],
            needed: &[], most: None, about: COUNT,
        },
        Verb::Diff => Row {
            name: "diff", options: LIST_OPTIONS, values: &["--form", "--format", "-o"],
            needed: TWO_LISTS, most: Some(2), about: DIFF,
        },
        Verb::Same => Row {
            name: "same", options: &["--table-header", "--host-bits", "--masks", "-k", "--skip-bad", "-h", "--help"],
            values: &["--form", "--table-separator", "--table-fields", "-o"], needed: TWO_LISTS, most: Some(2), about: SAME,
        },
        Verb::Free => Row {
            name: "free", options: &["--all", "--host-bits", "--masks", "-k", "--skip-bad", "-h", "--help"],
            values: &["--count", "--form", "--format", "--prefix", "--suffix", "-o"],
            needed: &["POOL", "LEN"], most: None, about: FREE,
        },
        Verb::Acl => Row {
            name: "acl", options: &["--shadowed", "--host-bits", "--masks", "-h", "--help"],
            values: &["--diff", "--format", "--prefix", "--suffix", "-o"], needed: &["RULES"], most: Some(1), about: ACL,
        },
        Verb::Check => Row { name: "check", options: KEEP_OPTIONS, values: &[], needed: &[], most: None, about: CHECK },
        Verb::Which => Row { name: "which", options: KEEP_OPTIONS, values: &[], needed: &["ADDR"], most: None, about: WHICH },
        Verb::Match => Row {
            name: "match", options: &["--any", "--header", "-v", "-c", "-q", "--host-bits", "--masks", "-k", "--skip-bad", "-h", "--help"],
            values: &["--field", "--separator", "--form"], needed: &["LIST"], most: None, about: MATCH,
        },
        Verb::Look => Row {
            name: "look", options: &["--any", "--header", "--keep", "--table-header", "--host-bits", "--masks", "-k", "--skip-bad", "-h", "--help"],
            values: &["--field", "--separator", "--form", "--table-separator", "--table-fields", "--format"],
            needed: &["TABLE"], most: Some(2), about: LOOK,
        },
        Verb::Compile => Row {
            name: "compile", options: &["--table-header", "--host-bits", "--masks", "-k", "-h", "--help"],
            values: &["--form", "--table-separator", "--table-fields"], needed: &["TABLE", "OUT"], most: Some(2), about: COMPILE,
        },
        Verb::Smallest => Row {
            name: "smallest", options: &["--holes", "--table-header", "--host-bits", "--masks", "-k", "--skip-bad", "-h", "--help"],
            values: &["--form", "--table-separator", "--table-fields", "-o"], needed: &["TABLE"], most: Some(1), about: SMALLEST,
        },
        Verb::Describe(Description::Zones) => Row {
            name: "reverse", options: LIST_OPTIONS, values: &["--form", "-o"],
            needed: &["NET|FILE"], most: Some(1), about: REVERSE,
        },
        Verb::Describe(Description::Masks) => Row {
            name: "mask", options: LIST_OPTIONS, values: &["--form", "-o"],
            needed: &["NET|LEN|MASK|FILE"], most: Some(1), about: MASK,
        },
        Verb::Class => Row {
            name: "class", options: HELP_OPTIONS, values: &[],
            needed: &["ADDR|FILE"], most: Some(1), about: CLASS,
        },
        Verb::Show => Row { name: "show", options: HELP_OPTIONS, values: &[], needed: &["HOST"], most: Some(1), about: SHOW },
        Verb::Split => Row {
            name: "split", options: LIST_OPTIONS, values: LIST_VALUES,
            needed: &["NET|FILE", "LEN"], most: Some(2), about: SPLIT,
        },
        Verb::Nth => Row {
            name: "nth", options: HELP_OPTIONS, values: &[],
            needed: &["NET", "INDEX"], most: Some(2), about: NTH,
        },
        Verb::Help => Row { name: "help", options: HELP_OPTIONS, values: &[], needed: &[], most: Some(1), about: HELP },
        Verb::Version => Row {
            name: "--version", options: HELP_OPTIONS, values: &[],
            needed: &[], most: Some(0), about: VERSION,
        },
    }
}

/// The name of a command.
#[inline]
pub fn name_of(command: Verb) -> &'static str {
    row_of(command).name
}

/// The options of a command that have no value.
#[inline]
pub fn options_of(command: Verb) -> &'static [&'static str] {
    row_of(command).options
}

/// Whether a command has an option with a value.
#[inline]
pub fn takes_value(command: Verb, option: &str) -> bool {
    has(row_of(command).values, option)
}

/// What the page says of a command.
#[inline]
pub fn about_of(command: Verb) -> &'static str {
    row_of(command).about
}
