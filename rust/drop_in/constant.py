"""`const fn` for the edition over `core::net`: the crate `cidr` has its calls of one family and of either so.

No call of a trait is `const` in Rust, and the proved text is written once over both families by a trait. So here

- the arithmetic is `const`, where a cast stands for `from`;
- the calls of the trait `AddressBits` stand once for each family as functions, in `const_bits`;
- the block of a generic type, as `impl<A: AddressBits> Network<A>`, stands once for each family, with these functions, and once
  as a trait, for what is written over both;
- a walk is made once for each family and for either, by how many addresses its pair has;
- in the blocks of either family a `match` stands for `?`.

Each body is that of the proved text but for these replacements.
"""
import re
from pathlib import Path

FAMILIES = "46"
TYPES = {"Network": "cidr/network.rs", "Host": "inet/host.rs", "HostPair": "inet_pair/host_pair.rs"}
EITHER = {
    "IpCidr": "cidr/combined.rs",
    "AnyIpCidr": "cidr/any.rs",
    "IpInet": "inet/combined.rs",
    "IpInetPair": "inet_pair/combined.rs",
}
# Functions over numbers that the calls of `AddressBits` are written by, and those of these that the blocks use.
NUMBERS = "first_number host_mask host_part last_number same_first_bits step_down step_up".split()
BITS = "first_in last_in is_first_in shares step_up step_down mask_of count_to".split()

FROM = re.compile(r"\b(u16|u32|u64|u128|usize)::from\(((?:[^()]|\((?:[^()]|\([^()]*\))*\))*)\)")
FUNCTION = r"^( *(?:pub(?:\([a-z]+\))? )?)fn (\w+)"


def with_casts(text):
    """`u64::from(x)` as a cast, which widens."""
    return FROM.sub(lambda found: f"({found[2]} as {found[1]})" if re.fullmatch(r"[\w.]+", found[2]) else f"(({found[2]}) as {found[1]})", text)


def with_const(text, but=()):
    """Each function `const`, but those of these names, and what is given a `&mut`, which may be so only from Rust 1.83 on."""
    return re.sub(FUNCTION + r"\b(?!\(&mut)", lambda found: found[0] if found[2] in but else f"{found[1]}const fn {found[2]}", text, flags=re.M)


CARRIES = '''
const fn carrying_add(a: u64, b: u64, carry: bool) -> (u64, bool) {
    let (sum, one) = a.overflowing_add(b);
    let (sum, two) = sum.overflowing_add(carry as u64);
    (sum, one | two)
}

const fn borrowing_sub(a: u64, b: u64, borrow: bool) -> (u64, bool) {
    let (rest, one) = a.overflowing_sub(b);
    let (rest, two) = rest.overflowing_sub(borrow as u64);
    (rest, one | two)
}
'''


def arithmetic(texts):
    for place in ("arithmetic.rs", "arithmetic/half.rs", "arithmetic/halves.rs"):
        texts[place] = with_const(with_casts(texts[place]), but=("order", "fmt"))
    halves = texts["arithmetic/halves.rs"].replace("use cidr_support::carry::Carrying;\n", "")
    texts["arithmetic/halves.rs"] = re.sub(r"self\.(\w+)\.(carrying_add|borrowing_sub)\(", r"\2(self.\1, ", halves) + CARRIES
    texts["family.rs"] = with_const(texts["family.rs"])
    texts["errors.rs"] = texts["errors.rs"].replace("pub(crate) fn new(len: usize", "pub(crate) const fn new(len: usize")
    texts["num.rs"] = with_const(texts["num.rs"], but=("size_hint", "fmt"))
    texts["text/with_length.rs"] = texts["text/with_length.rs"].replace("pub(crate) fn new", "pub(crate) const fn new")


def bits_of_family(text, family):
    """The functions of `impl AddressBits` of one family, on an address `this`."""
    block = re.search(rf"^impl AddressBits for Ipv{family}Addr \{{\n(.*?)^\}}", text, re.S | re.M)[1]
    made = []
    for name, head, body in re.findall(r"^    fn (\w+)(\([^\n]*) \{\n(.*?)^    \}\n", block, re.S | re.M):
        if name in BITS:
            head = re.sub(r"\bself\b", f"this: Ipv{family}Addr", head)
            body = re.sub(r"\b(this|other|last)\.halves\(\)", r"halves(\1)", re.sub(r"\bself\b", "this", body))
            body = body.replace("Ipv6Addr::from_halves(", "from_halves(")
            body = re.sub(rf"(?<![.\w])({'|'.join(NUMBERS)})\(", r"arithmetic::\1(", body)
            made.append(f"    pub(crate) const fn {name}{head} {{\n{with_casts(body)}    }}\n")
    uses = "use crate::addr::v4::Ipv4Addr;" if family == "4" else "use crate::addr::v6::{Ipv6Addr, from_halves, halves};"
    return (
        f"pub(crate) mod v{family} {{\n    {uses}\n    use crate::arithmetic::halves::Halves;\n"
        "    use crate::arithmetic;\n    use crate::num::NumberOfAddresses;\n\n"
        + "\n".join(made) + "}\n"
    )


def of_family(block, family):
    """The block of a generic type for one family."""
    call = rf"crate::const_bits::v{family}::"
    block = re.sub(r"^ *(?://[^\n]*\n *)?[\w.]+\.has_width\(\);\n", "", block, flags=re.M)
    block = block.replace("A::FAMILY", f"Family::Ipv{family}").replace("A::mask_of(", f"{call}mask_of(")
    block = re.sub(rf"(?<![\w.>])((?:self\.)?\w+(?:\(\))?)\s*\.({'|'.join(BITS)})\(", rf"{call}\2(\1, ", block)
    block = re.sub(r"\b(Network|Host|HostPair)::(?=[a-z])", rf"\1::<Ipv{family}Addr>::", block)
    block = re.sub(r"NetworkParseError::from\((\w+)\)", r"NetworkParseError::NetworkLengthTooLongError(\1)", block)
    return with_const(re.sub(r"(?<=[ (<&\[])A(?=[,)>\] ;{]|$)", f"Ipv{family}Addr", block, flags=re.M))


def generic_types(texts):
    for name, place in TYPES.items():
        whole = re.search(rf"^impl<A: AddressBits> {name}<A> \{{\n(.*?)^\}}\n", texts[place], re.S | re.M)
        block = re.sub(r"^    pub(\([a-z]+\))? fn", "    fn", whole[1], flags=re.M)
        heads = re.findall(r"^    fn \w+(?:<[^>]*>)?\(.*?\)(?: -> [^{]*)? \{$", block, re.S | re.M)
        declared = "\n".join(re.sub(r"\bmut (?=\w+:)", "", head[:-2]) + ";" for head in heads)
        bare = re.sub(r"^    ///[^\n]*\n", "", block, flags=re.M)
        trait = f"/// The calls of `{name}`, written once over both families.\npub trait {name}Calls<A: AddressBits>: Sized {{\n{declared}\n}}\n"
        blocks = [f"impl {name}<Ipv{family}Addr> {{\n{of_family(whole[1], family)}}}\n" for family in FAMILIES]
        blocks += [trait, f"impl<A: AddressBits> {name}Calls<A> for {name}<A> {{\n{bare}}}\n"]
        texts[place] = texts[place].replace(whole[0], "\n".join(blocks))


def with_calls(texts):
    """What is written over both families calls the blocks as traits."""
    for place, text in texts.items():
        if place in ("lib.rs", "const_bits.rs") or place.startswith("addr/"):
            continue
        text = re.sub(r"\b(Network|Host|HostPair)::(?=[a-z])", r"\1::<A>::", text)
        if re.search(r"\b(Network|Host|HostPair|Ipv[46]\w+|inet|host|pair)\b", text):
            uses = "".join(f"use crate::{path[:-3].replace('/', '::')}::{name}Calls as _;\n" for name, path in TYPES.items())
            text = re.sub(r"^(?=use )", uses, text, count=1, flags=re.M)
        texts[place] = text
    # The trait `Inet` has calls of the same names, so that here the trait is told.
    place = "traits/one_family.rs"
    text = texts[place].replace("Host::<A>::", "<Host<A> as crate::inet::host::HostCalls<A>>::")
    text = re.sub(r"\bself\.(\w+)\((\w*)\)", lambda found: f"crate::inet::host::HostCalls::{found[1]}({', '.join(filter(None, ('self', found[2])))})", text)
    texts[place] = text


CALL = r"\w+::\w+\((?:[^()]|\([^()]*\))*\)"


def either_family(texts):
    for name, place in EITHER.items():
        whole = re.search(rf"^impl {name} \{{\n(.*?)^\}}\n", texts[place], re.S | re.M)[1]
        to_any = "match {} {{\n            {}IpCidr::V4(network){} => {}AnyIpCidr::V4(network){},\n            {}IpCidr::V6(network){} => {}AnyIpCidr::V6(network){},\n"
        block = whole.replace("AnyIpCidr::from(IpCidr::new_host(addr))",
                              to_any.format("IpCidr::new_host(addr)", *[""] * 8) + "        }")
        block = block.replace("Ok(AnyIpCidr::from(IpCidr::new(addr, len)?))",
                              to_any.format("IpCidr::new(addr, len)", *["Ok(", ")"] * 4) + "            Err(e) => Err(e),\n        }")
        block = re.sub(rf"Ok\(\s*(\w+::\w+)\(\s*({CALL})\?,?\s*\)\s*,?\s*\)",
                       "match \\2 {\n                Ok(made) => Ok(\\1(made)),\n                Err(e) => Err(e),\n            }", block)
        block = re.sub(r"Some\((\w+::\w+)\((\w+\.\w+\(\))\?\)\)",
                       "match \\2 {\n                Some(made) => Some(\\1(made)),\n                None => None,\n            }", block)
        texts[place] = texts[place].replace(whole, with_const(block, but=("to_text", "write_to")))


def walks(texts):
    """The calls that make a walk, and of these how many addresses a pair has."""
    text = texts["traits/sealed_types.rs"]
    counts = re.findall(r"^    fn _covered_addresses\(&self\) -> NumberOfAddresses \{\n.*?^    \}\n", text, re.S | re.M)
    of_host_pair, of_either = (re.sub(r"\bfn _covered", "pub(crate) fn covered", count) for count in counts)
    blocks = [f"impl HostPair<Ipv{family}Addr> {{\n{of_family(of_host_pair, family)}}}\n" for family in FAMILIES]
    blocks.append(f"impl IpInetPair {{\n{with_const(of_either.replace('._covered', '.covered'))}}}\n")
    texts["traits/sealed_types.rs"] = text + "\n" + "\n".join(blocks)

    text = texts["inet_iterator.rs"].replace("pub fn addresses(self)", "pub const fn addresses(self)")
    made = re.search(r"^    /// The walk of a pair\.\n    pub\(crate\) fn _new\(.*?^    \}\n\n", text, re.S | re.M)[0]
    const = re.sub(r"(\w+)\._covered_addresses\(\) == ([\w:]+\(0\))", r"matches!(\1.covered_addresses(), \2)", with_const(made).rstrip() + "\n")
    blocks = [const.replace("A::InetPair", f"crate::inet_pair::{place}::{of}InetPair").replace("<A>", f"<{of}Addr>")
              for of, place in (("Ipv4", "host_pair"), ("Ipv6", "host_pair"), ("Ip", "combined"))]
    types = ("v4::Ipv4Addr", "v6::Ipv6Addr", "ip::IpAddr")
    uses = "".join(f"use crate::addr::{path};\n" for path in types)
    blocks = "".join(f"impl InetIterator<{path.rpartition('::')[2]}> {{\n{block}}}\n\n" for path, block in zip(types, blocks))
    text = re.sub(r"^(?=use )", uses, text.replace(made, ""), count=1, flags=re.M)
    texts["inet_iterator.rs"] = text.replace("impl<A: Address> Copy for InetIterator<A>", blocks + "impl<A: Address> Copy for InetIterator<A>", 1)

    for place in ("cidr/v4.rs", "cidr/v6.rs", "cidr/combined.rs", "inet_pair/v4.rs", "inet_pair/v6.rs", "inet_pair/combined.rs"):
        address = {"v4": "Ipv4Addr", "v6": "Ipv6Addr", "combined": "IpAddr"}[Path(place).stem]
        text = re.sub(r"\bpub fn iter\(", "pub const fn iter(", texts[place])
        texts[place] = text.replace("InetIterator::_new(", f"InetIterator::<{address}>::_new(")


def steps(texts):
    """The steps that are a `u32`."""
    whole = re.search(r"^impl Ipv4Inet \{\n(.*?)^\}\n", texts["inet/v4.rs"], re.S | re.M)[1]
    texts["inet/v4.rs"] = texts["inet/v4.rs"].replace(whole, with_const(with_casts(whole)))


HALVES = '''pub(crate) const fn from_halves(value: Halves) -> Ipv6Addr {
    Ipv6Addr::from_bits(value.join())
}

pub(crate) const fn halves(address: Ipv6Addr) -> Halves {
    Halves::split(address.to_bits())
}

/// The address as a number, in halves.'''


def with_const_fns(texts):
    """The files with what can be `const` so."""
    texts = {str(place): text for place, text in texts.items()}
    arithmetic(texts)
    texts["addr/v6.rs"] = texts["addr/v6.rs"].replace("/// The address as a number, in halves.", HALVES, 1)
    bits = texts["internal_traits/address_bits.rs"]
    texts["const_bits.rs"] = "//! The calls of `AddressBits`, for each family.\n\n" + "\n".join(bits_of_family(bits, f) for f in FAMILIES)
    texts["lib.rs"] = texts["lib.rs"].replace("\nmod canon;\n", "\nmod canon;\nmod const_bits;\n")
    generic_types(texts)
    with_calls(texts)
    either_family(texts)
    walks(texts)
    steps(texts)
    return {Path(place): text for place, text in texts.items()}
