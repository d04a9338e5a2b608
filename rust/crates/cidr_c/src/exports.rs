//! The calls for C. Each passes on what it is given, which is as the header says: see `pointers`.
#![allow(unsafe_code, clippy::missing_safety_doc)]

use cidr_lookup::Ipv6Halves;
use cidr_support::alloc::Global;
use crate::files::CFile;
use crate::files::CFound;
use crate::forwarding::CRow;
use crate::mmdb::CMmdb;
use crate::mmdb::CMmdbRow;
use crate::plans::CPlanFault;
use crate::plans::CPlanRow;
use crate::pointers::{slice, slice_mut};
use crate::ranges::CRange;
use crate::routes::CPayload;
use crate::routes::CPrefixRow;
use crate::rules::CRule;
use crate::special::CSpecial;
use crate::tables::CTable;
use crate::tables::CTableSizes;
use crate::values::CValue;

#[no_mangle]
pub unsafe extern "C" fn pcidr_supernet_by_value(host: CValue, len: u8, out: *mut CValue) -> u32 {
    crate::around::pcidr_supernet_by_value(host, len, &mut *out)
}

#[no_mangle]
pub unsafe extern "C" fn pcidr_parent_by_value(host: CValue, out: *mut CValue) -> u32 {
    crate::around::pcidr_parent_by_value(host, &mut *out)
}

#[no_mangle]
pub unsafe extern "C" fn pcidr_network_halves_by_value(host: CValue, lower: *mut CValue, upper: *mut CValue) -> u32 {
    crate::around::pcidr_network_halves_by_value(host, &mut *lower, &mut *upper)
}

#[no_mangle]
pub unsafe extern "C" fn pcidr_sibling_by_value(host: CValue, out: *mut CValue) -> u32 {
    crate::around::pcidr_sibling_by_value(host, &mut *out)
}

#[no_mangle]
pub unsafe extern "C" fn pcidr_next_network_by_value(host: CValue, out: *mut CValue) -> u32 {
    crate::around::pcidr_next_network_by_value(host, &mut *out)
}

#[no_mangle]
pub unsafe extern "C" fn pcidr_previous_network_by_value(host: CValue, out: *mut CValue) -> u32 {
    crate::around::pcidr_previous_network_by_value(host, &mut *out)
}

#[no_mangle]
pub unsafe extern "C" fn pcidr_subnet_by_value(host: CValue, len: u8, high: u64, low: u64, out: *mut CValue) -> u32 {
    crate::around::pcidr_subnet_by_value(host, len, high, low, &mut *out)
}

#[no_mangle]
pub unsafe extern "C" fn pcidr_host_mask_by_value(host: CValue, out: *mut CValue) -> u32 {
    crate::around::pcidr_host_mask_by_value(host, &mut *out)
}

#[no_mangle]
pub unsafe extern "C" fn pcidr_nth_by_value(host: CValue, high: u64, low: u64, out: *mut CValue) -> u32 {
    crate::around::pcidr_nth_by_value(host, high, low, &mut *out)
}

#[no_mangle]
pub unsafe extern "C" fn pcidr_address_count(host: *const CValue, count: *mut Ipv6Halves) -> u32 {
    crate::around::pcidr_address_count(&*host, &mut *count)
}

#[no_mangle]
pub unsafe extern "C" fn pcidr_position(host: *const CValue, address: *const CValue, index: *mut Ipv6Halves) -> u32 {
    crate::around::pcidr_position(&*host, &*address, &mut *index)
}

#[no_mangle]
pub unsafe extern "C" fn pcidr_first_usable_by_value(host: CValue, out: *mut CValue) -> u32 {
    crate::around::pcidr_first_usable_by_value(host, &mut *out)
}

#[no_mangle]
pub unsafe extern "C" fn pcidr_last_usable_by_value(host: CValue, out: *mut CValue) -> u32 {
    crate::around::pcidr_last_usable_by_value(host, &mut *out)
}

#[no_mangle]
pub unsafe extern "C" fn pcidr_usable_count(host: *const CValue, count: *mut usize) -> u32 {
    crate::around::pcidr_usable_count(&*host, &mut *count)
}

#[no_mangle]
pub unsafe extern "C" fn pcidr_spanning(one: *const CValue, other: *const CValue, out: *mut CValue) -> u32 {
    crate::around::pcidr_spanning(&*one, &*other, &mut *out)
}

#[no_mangle]
pub unsafe extern "C" fn pcidr_is_sibling_of(one: *const CValue, other: *const CValue) -> u32 {
    crate::around::pcidr_is_sibling_of(&*one, &*other)
}

#[no_mangle]
pub unsafe extern "C" fn pcidr_overlaps(one: *const CValue, other: *const CValue) -> u32 {
    crate::around::pcidr_overlaps(&*one, &*other)
}

#[no_mangle]
pub unsafe extern "C" fn pcidr_network_from_bytes(bytes: *const u8, bytes_len: usize, out: *mut CValue, used: *mut usize) -> u32 {
    crate::bytes::pcidr_network_from_bytes(slice(bytes, bytes_len), &mut *out, &mut *used)
}

#[no_mangle]
pub unsafe extern "C" fn pcidr_host_from_bytes(bytes: *const u8, bytes_len: usize, out: *mut CValue, used: *mut usize) -> u32 {
    crate::bytes::pcidr_host_from_bytes(slice(bytes, bytes_len), &mut *out, &mut *used)
}

#[no_mangle]
pub unsafe extern "C" fn pcidr_complement(networks: *const CValue, networks_len: usize, within: *const CValue, out: *mut CValue, out_len: usize, count: *mut usize) -> u32 {
    crate::comparing::pcidr_complement(Global, slice(networks, networks_len), &*within, slice_mut(out, out_len), &mut *count)
}

#[no_mangle]
pub unsafe extern "C" fn pcidr_is_subset(these: *const CValue, these_len: usize, those: *const CValue, those_len: usize, answer: *mut u32) -> u32 {
    crate::comparing::pcidr_is_subset(Global, slice(these, these_len), slice(those, those_len), &mut *answer)
}

#[no_mangle]
pub unsafe extern "C" fn pcidr_is_disjoint(these: *const CValue, these_len: usize, those: *const CValue, those_len: usize, answer: *mut u32) -> u32 {
    crate::comparing::pcidr_is_disjoint(Global, slice(these, these_len), slice(those, those_len), &mut *answer)
}

#[no_mangle]
pub unsafe extern "C" fn pcidr_count_ipv4(networks: *const CValue, networks_len: usize, count: *mut Ipv6Halves) -> u32 {
    crate::counting::pcidr_count_ipv4(Global, slice(networks, networks_len), &mut *count)
}

#[no_mangle]
pub unsafe extern "C" fn pcidr_count_ipv6(networks: *const CValue, networks_len: usize, count: *mut Ipv6Halves) -> u32 {
    crate::counting::pcidr_count_ipv6(Global, slice(networks, networks_len), &mut *count)
}

#[no_mangle]
pub unsafe extern "C" fn pcidr_nth_ipv4(networks: *const CValue, networks_len: usize, high: u64, low: u64, out: *mut CValue) -> u32 {
    crate::counting::pcidr_nth_ipv4(Global, slice(networks, networks_len), high, low, &mut *out)
}

#[no_mangle]
pub unsafe extern "C" fn pcidr_nth_ipv6(networks: *const CValue, networks_len: usize, high: u64, low: u64, out: *mut CValue) -> u32 {
    crate::counting::pcidr_nth_ipv6(Global, slice(networks, networks_len), high, low, &mut *out)
}

#[no_mangle]
pub unsafe extern "C" fn pcidr_covering(networks: *const CValue, networks_len: usize, asked: *const CValue, out: *mut usize, out_len: usize, count: *mut usize) -> u32 {
    crate::covering::pcidr_covering(Global, slice(networks, networks_len), &*asked, slice_mut(out, out_len), &mut *count)
}

#[no_mangle]
pub unsafe extern "C" fn pcidr_covered(networks: *const CValue, networks_len: usize, asked: *const CValue, out: *mut usize, out_len: usize, count: *mut usize) -> u32 {
    crate::covering::pcidr_covered(Global, slice(networks, networks_len), &*asked, slice_mut(out, out_len), &mut *count)
}

#[no_mangle]
pub unsafe extern "C" fn pcidr_print_exploded_address(address: *const CValue, out: *mut u8, out_len: usize) -> usize {
    crate::exploded::pcidr_print_exploded_address(&*address, slice_mut(out, out_len))
}

#[no_mangle]
pub unsafe extern "C" fn pcidr_print_exploded_host(host: *const CValue, out: *mut u8, out_len: usize) -> usize {
    crate::exploded::pcidr_print_exploded_host(&*host, slice_mut(out, out_len))
}

#[no_mangle]
pub unsafe extern "C" fn pcidr_text_fault(text: *const u8, text_len: usize, out: *mut u8, out_len: usize) -> usize {
    crate::faults::pcidr_text_fault(slice(text, text_len), slice_mut(out, out_len))
}

#[no_mangle]
pub unsafe extern "C" fn pcidr_file_open(bytes: *const u8, bytes_len: usize, file: *mut CFile) -> u32 {
    crate::files::pcidr_file_open(slice(bytes, bytes_len), &mut *file)
}

#[no_mangle]
pub unsafe extern "C" fn pcidr_file_check(bytes: *const u8, bytes_len: usize) -> u32 {
    crate::files::pcidr_file_check(Global, slice(bytes, bytes_len))
}

#[no_mangle]
pub unsafe extern "C" fn pcidr_file_lookup(bytes: *const u8, bytes_len: usize, file: *const CFile, address: *const CValue, found: *mut CFound) -> u32 {
    crate::files::pcidr_file_lookup(slice(bytes, bytes_len), &*file, &*address, &mut *found)
}

#[no_mangle]
pub unsafe extern "C" fn pcidr_file_lookup_each(bytes: *const u8, bytes_len: usize, file: *const CFile, asked: *const CValue, asked_len: usize, out: *mut CFound, out_len: usize) -> u32 {
    crate::files::pcidr_file_lookup_each(slice(bytes, bytes_len), &*file, slice(asked, asked_len), slice_mut(out, out_len))
}

#[no_mangle]
pub unsafe extern "C" fn pcidr_set_has(bytes: *const u8, bytes_len: usize, file: *const CFile, address: *const CValue) -> u32 {
    crate::files::pcidr_set_has(slice(bytes, bytes_len), &*file, &*address)
}

#[no_mangle]
pub unsafe extern "C" fn pcidr_set_has_each(bytes: *const u8, bytes_len: usize, file: *const CFile, asked: *const CValue, asked_len: usize, out: *mut u8, out_len: usize) -> u32 {
    crate::files::pcidr_set_has_each(slice(bytes, bytes_len), &*file, slice(asked, asked_len), slice_mut(out, out_len))
}

#[no_mangle]
pub unsafe extern "C" fn pcidr_smallest(rows: *const CRow, rows_len: usize, out: *mut CRow, out_len: usize, count: *mut usize) -> u32 {
    crate::forwarding::pcidr_smallest(Global, slice(rows, rows_len), slice_mut(out, out_len), &mut *count)
}

#[no_mangle]
pub unsafe extern "C" fn pcidr_forwards_same(these: *const CRow, these_len: usize, those: *const CRow, those_len: usize, answer: *mut u32) -> u32 {
    crate::forwarding::pcidr_forwards_same(Global, slice(these, these_len), slice(those, those_len), &mut *answer)
}

#[no_mangle]
pub unsafe extern "C" fn pcidr_ipv6_mapped_by_value(host: CValue, out: *mut CValue) -> u32 {
    crate::inside_ipv6::pcidr_ipv6_mapped_by_value(host, &mut *out)
}

#[no_mangle]
pub unsafe extern "C" fn pcidr_ipv4_mapped_by_value(host: CValue, out: *mut CValue) -> u32 {
    crate::inside_ipv6::pcidr_ipv4_mapped_by_value(host, &mut *out)
}

#[no_mangle]
pub unsafe extern "C" fn pcidr_ipv4_6to4_by_value(address: CValue, out: *mut CValue) -> u32 {
    crate::inside_ipv6::pcidr_ipv4_6to4_by_value(address, &mut *out)
}

#[no_mangle]
pub unsafe extern "C" fn pcidr_ipv4_nat64_by_value(address: CValue, out: *mut CValue) -> u32 {
    crate::inside_ipv6::pcidr_ipv4_nat64_by_value(address, &mut *out)
}

#[no_mangle]
pub unsafe extern "C" fn pcidr_read_lines(text: *const u8, text_len: usize, out: *mut CValue, out_len: usize, count: *mut usize) -> u32 {
    crate::lines::pcidr_read_lines(slice(text, text_len), slice_mut(out, out_len), &mut *count)
}

#[no_mangle]
pub unsafe extern "C" fn pcidr_print_lines(networks: *const CValue, networks_len: usize, out: *mut u8, out_len: usize, count: *mut usize) -> u32 {
    crate::lines::pcidr_print_lines(slice(networks, networks_len), slice_mut(out, out_len), &mut *count)
}

#[no_mangle]
pub unsafe extern "C" fn pcidr_read_list(text: *const u8, text_len: usize, host_bits: u32, out: *mut CValue, out_len: usize, count: *mut usize, line: *mut u64, message: *mut u8, message_len: usize) -> u32 {
    crate::lists::pcidr_read_list(Global, slice(text, text_len), host_bits, slice_mut(out, out_len), &mut *count, &mut *line, slice_mut(message, message_len))
}

#[no_mangle]
pub unsafe extern "C" fn pcidr_contains_each(networks: *const CValue, networks_len: usize, asked: *const CValue, asked_len: usize, out: *mut u8, out_len: usize) -> u32 {
    crate::lookups::pcidr_contains_each(Global, slice(networks, networks_len), slice(asked, asked_len), slice_mut(out, out_len))
}

#[no_mangle]
pub unsafe extern "C" fn pcidr_longest_match_each(networks: *const CValue, networks_len: usize, asked: *const CValue, asked_len: usize, out: *mut usize, out_len: usize) -> u32 {
    crate::lookups::pcidr_longest_match_each(Global, slice(networks, networks_len), slice(asked, asked_len), slice_mut(out, out_len))
}

#[no_mangle]
pub unsafe extern "C" fn pcidr_mask_length(address: *const CValue, len: *mut u8) -> u32 {
    crate::masks::pcidr_mask_length(&*address, &mut *len)
}

#[no_mangle]
pub unsafe extern "C" fn pcidr_host_mask_length(address: *const CValue, len: *mut u8) -> u32 {
    crate::masks::pcidr_host_mask_length(&*address, &mut *len)
}

#[no_mangle]
pub unsafe extern "C" fn pcidr_print_with_mask(host: *const CValue, out: *mut u8, out_len: usize) -> usize {
    crate::masks::pcidr_print_with_mask(&*host, slice_mut(out, out_len))
}

#[no_mangle]
pub unsafe extern "C" fn pcidr_print_with_host_mask(host: *const CValue, out: *mut u8, out_len: usize) -> usize {
    crate::masks::pcidr_print_with_host_mask(&*host, slice_mut(out, out_len))
}

#[no_mangle]
pub unsafe extern "C" fn pcidr_print_host_with_mask(host: *const CValue, out: *mut u8, out_len: usize) -> usize {
    crate::masks::pcidr_print_host_with_mask(&*host, slice_mut(out, out_len))
}

#[no_mangle]
pub unsafe extern "C" fn pcidr_print_host_with_host_mask(host: *const CValue, out: *mut u8, out_len: usize) -> usize {
    crate::masks::pcidr_print_host_with_host_mask(&*host, slice_mut(out, out_len))
}

#[no_mangle]
pub unsafe extern "C" fn pcidr_read_masked_network(text: *const u8, text_len: usize, out: *mut CValue) -> u32 {
    crate::masks::pcidr_read_masked_network(slice(text, text_len), &mut *out)
}

#[no_mangle]
pub unsafe extern "C" fn pcidr_mmdb_open(bytes: *const u8, bytes_len: usize, file: *mut CMmdb) -> u32 {
    crate::mmdb::pcidr_mmdb_open(slice(bytes, bytes_len), &mut *file)
}

#[no_mangle]
pub unsafe extern "C" fn pcidr_mmdb_lookup(bytes: *const u8, bytes_len: usize, file: *const CMmdb, address: *const CValue, row: *mut CMmdbRow) -> u32 {
    crate::mmdb::pcidr_mmdb_lookup(slice(bytes, bytes_len), &*file, &*address, &mut *row)
}

#[no_mangle]
pub unsafe extern "C" fn pcidr_mmdb_next(bytes: *const u8, bytes_len: usize, file: *const CMmdb, row: *mut CMmdbRow) -> u32 {
    crate::mmdb::pcidr_mmdb_next(slice(bytes, bytes_len), &*file, &mut *row)
}

#[no_mangle]
pub unsafe extern "C" fn pcidr_mmdb_json(bytes: *const u8, bytes_len: usize, file: *const CMmdb, place: usize, limit: usize, out: *mut u8, out_len: usize, count: *mut usize) -> u32 {
    crate::mmdb::pcidr_mmdb_json(Global, slice(bytes, bytes_len), &*file, place, limit, slice_mut(out, out_len), &mut *count)
}

#[no_mangle]
pub unsafe extern "C" fn pcidr_mmdb_metadata(bytes: *const u8, bytes_len: usize, file: *const CMmdb, limit: usize, out: *mut u8, out_len: usize, count: *mut usize) -> u32 {
    crate::mmdb::pcidr_mmdb_metadata(Global, slice(bytes, bytes_len), &*file, limit, slice_mut(out, out_len), &mut *count)
}

#[no_mangle]
pub unsafe extern "C" fn pcidr_print_reverse_name(host: *const CValue, out: *mut u8, out_len: usize) -> usize {
    crate::names::pcidr_print_reverse_name(&*host, slice_mut(out, out_len))
}

#[no_mangle]
pub unsafe extern "C" fn pcidr_print_reverse_zone(host: *const CValue, index: usize, out: *mut u8, out_len: usize) -> usize {
    crate::names::pcidr_print_reverse_zone(&*host, index, slice_mut(out, out_len))
}

#[no_mangle]
pub unsafe extern "C" fn pcidr_read_reverse_name(text: *const u8, text_len: usize, out: *mut CValue) -> u32 {
    crate::names::pcidr_read_reverse_name(slice(text, text_len), &mut *out)
}

#[no_mangle]
pub unsafe extern "C" fn pcidr_sort_order(networks: *const CValue, networks_len: usize, out: *mut usize, out_len: usize, count: *mut usize) -> u32 {
    crate::ordering::pcidr_sort_order(Global, slice(networks, networks_len), slice_mut(out, out_len), &mut *count)
}

#[no_mangle]
pub unsafe extern "C" fn pcidr_table_order(networks: *const CValue, networks_len: usize, out: *mut usize, out_len: usize, count: *mut usize) -> u32 {
    crate::ordering::pcidr_table_order(Global, slice(networks, networks_len), slice_mut(out, out_len), &mut *count)
}

#[no_mangle]
pub unsafe extern "C" fn pcidr_nearest_each(networks: *const CValue, networks_len: usize, out: *mut usize, out_len: usize) -> u32 {
    crate::ordering::pcidr_nearest_each(Global, slice(networks, networks_len), slice_mut(out, out_len))
}

#[no_mangle]
pub unsafe extern "C" fn pcidr_first_by_value(host: CValue, out: *mut CValue) -> u32 {
    crate::parts::pcidr_first_by_value(host, &mut *out)
}

#[no_mangle]
pub unsafe extern "C" fn pcidr_last_by_value(host: CValue, out: *mut CValue) -> u32 {
    crate::parts::pcidr_last_by_value(host, &mut *out)
}

#[no_mangle]
pub unsafe extern "C" fn pcidr_mask_by_value(host: CValue, out: *mut CValue) -> u32 {
    crate::parts::pcidr_mask_by_value(host, &mut *out)
}

#[no_mangle]
pub unsafe extern "C" fn pcidr_address_by_value(host: CValue, out: *mut CValue) -> u32 {
    crate::parts::pcidr_address_by_value(host, &mut *out)
}

#[no_mangle]
pub unsafe extern "C" fn pcidr_network_by_value(host: CValue, out: *mut CValue) -> u32 {
    crate::parts::pcidr_network_by_value(host, &mut *out)
}

#[no_mangle]
pub unsafe extern "C" fn pcidr_check(value: *const CValue) -> u32 {
    crate::parts::pcidr_check(&*value)
}

#[no_mangle]
pub unsafe extern "C" fn pcidr_contains(outer: *const CValue, inner: *const CValue) -> u32 {
    crate::parts::pcidr_contains(&*outer, &*inner)
}

#[no_mangle]
pub unsafe extern "C" fn pcidr_compare(one: *const CValue, other: *const CValue) -> u32 {
    crate::parts::pcidr_compare(&*one, &*other)
}

#[no_mangle]
pub unsafe extern "C" fn pcidr_compare_hosts(one: *const CValue, other: *const CValue) -> u32 {
    crate::parts::pcidr_compare_hosts(&*one, &*other)
}

#[no_mangle]
pub unsafe extern "C" fn pcidr_step_up_by_value(host: CValue, high: u64, low: u64, out: *mut CValue) -> u32 {
    crate::parts::pcidr_step_up_by_value(host, high, low, &mut *out)
}

#[no_mangle]
pub unsafe extern "C" fn pcidr_step_down_by_value(host: CValue, high: u64, low: u64, out: *mut CValue) -> u32 {
    crate::parts::pcidr_step_down_by_value(host, high, low, &mut *out)
}

#[no_mangle]
pub unsafe extern "C" fn pcidr_at_by_value(host: CValue, high: u64, low: u64, out: *mut CValue) -> u32 {
    crate::parts::pcidr_at_by_value(host, high, low, &mut *out)
}

#[no_mangle]
pub unsafe extern "C" fn pcidr_read_plan(text: *const u8, text_len: usize, host_bits: u32, rows: *mut CPlanRow, rows_len: usize, count: *mut usize, faults: *mut CPlanFault, faults_len: usize, wrong: *mut usize) -> u32 {
    crate::plans::pcidr_read_plan(Global, slice(text, text_len), host_bits, slice_mut(rows, rows_len), &mut *count, slice_mut(faults, faults_len), &mut *wrong)
}

#[no_mangle]
pub unsafe extern "C" fn pcidr_plan_message(line: *const u8, line_len: usize, host_bits: u32, message: *mut u8, message_len: usize) -> u32 {
    crate::plans::pcidr_plan_message(slice(line, line_len), host_bits, slice_mut(message, message_len))
}

#[no_mangle]
pub unsafe extern "C" fn pcidr_first_free(networks: *const CValue, networks_len: usize, len: u8, out: *mut CValue) -> u32 {
    crate::pools::pcidr_first_free(Global, slice(networks, networks_len), len, &mut *out)
}

#[no_mangle]
pub unsafe extern "C" fn pcidr_best_free(networks: *const CValue, networks_len: usize, len: u8, out: *mut CValue) -> u32 {
    crate::pools::pcidr_best_free(Global, slice(networks, networks_len), len, &mut *out)
}

#[no_mangle]
pub unsafe extern "C" fn pcidr_print_address(address: *const CValue, out: *mut u8, out_len: usize) -> usize {
    crate::printing::pcidr_print_address(&*address, slice_mut(out, out_len))
}

#[no_mangle]
pub unsafe extern "C" fn pcidr_print_host(host: *const CValue, out: *mut u8, out_len: usize) -> usize {
    crate::printing::pcidr_print_host(&*host, slice_mut(out, out_len))
}

#[no_mangle]
pub unsafe extern "C" fn pcidr_print_host_with_length(host: *const CValue, out: *mut u8, out_len: usize) -> usize {
    crate::printing::pcidr_print_host_with_length(&*host, slice_mut(out, out_len))
}

#[no_mangle]
pub unsafe extern "C" fn pcidr_print_network(network: *const CValue, out: *mut u8, out_len: usize) -> usize {
    crate::printing::pcidr_print_network(&*network, slice_mut(out, out_len))
}

#[no_mangle]
pub unsafe extern "C" fn pcidr_print_network_with_length(network: *const CValue, out: *mut u8, out_len: usize) -> usize {
    crate::printing::pcidr_print_network_with_length(&*network, slice_mut(out, out_len))
}

#[no_mangle]
pub unsafe extern "C" fn pcidr_network_to_bytes(network: *const CValue, out: *mut u8, out_len: usize) -> usize {
    crate::printing::pcidr_network_to_bytes(&*network, slice_mut(out, out_len))
}

#[no_mangle]
pub unsafe extern "C" fn pcidr_host_to_bytes(host: *const CValue, out: *mut u8, out_len: usize) -> usize {
    crate::printing::pcidr_host_to_bytes(&*host, slice_mut(out, out_len))
}

#[no_mangle]
pub unsafe extern "C" fn pcidr_message(code: u32, out: *mut u8, out_len: usize) -> usize {
    crate::printing::pcidr_message(code, slice_mut(out, out_len))
}

#[no_mangle]
pub unsafe extern "C" fn pcidr_version() -> u32 {
    crate::printing::pcidr_version()
}

#[no_mangle]
pub unsafe extern "C" fn pcidr_summarize(first: *const CValue, last: *const CValue, out: *mut CValue, out_len: usize, count: *mut usize) -> u32 {
    crate::ranges::pcidr_summarize(Global, &*first, &*last, slice_mut(out, out_len), &mut *count)
}

#[no_mangle]
pub unsafe extern "C" fn pcidr_ranges(networks: *const CValue, networks_len: usize, out: *mut CRange, out_len: usize, count: *mut usize) -> u32 {
    crate::ranges::pcidr_ranges(Global, slice(networks, networks_len), slice_mut(out, out_len), &mut *count)
}

#[no_mangle]
pub unsafe extern "C" fn pcidr_read_address(text: *const u8, text_len: usize, out: *mut CValue) -> u32 {
    crate::reading::pcidr_read_address(slice(text, text_len), &mut *out)
}

#[no_mangle]
pub unsafe extern "C" fn pcidr_read_loose_address(text: *const u8, text_len: usize, out: *mut CValue) -> u32 {
    crate::reading::pcidr_read_loose_address(slice(text, text_len), &mut *out)
}

#[no_mangle]
pub unsafe extern "C" fn pcidr_read_host(text: *const u8, text_len: usize, out: *mut CValue) -> u32 {
    crate::reading::pcidr_read_host(slice(text, text_len), &mut *out)
}

#[no_mangle]
pub unsafe extern "C" fn pcidr_read_network(text: *const u8, text_len: usize, out: *mut CValue) -> u32 {
    crate::reading::pcidr_read_network(slice(text, text_len), &mut *out)
}

#[no_mangle]
pub unsafe extern "C" fn pcidr_read_short_network(text: *const u8, text_len: usize, out: *mut CValue) -> u32 {
    crate::reading::pcidr_read_short_network(slice(text, text_len), &mut *out)
}

#[no_mangle]
pub unsafe extern "C" fn pcidr_validity(payloads: *const CPayload, payloads_len: usize, route: *const CValue, origin: u64) -> u32 {
    crate::routes::pcidr_validity(slice(payloads, payloads_len), &*route, origin)
}

#[no_mangle]
pub unsafe extern "C" fn pcidr_list_permits(rows: *const CPrefixRow, rows_len: usize, network: *const CValue) -> u32 {
    crate::routes::pcidr_list_permits(slice(rows, rows_len), &*network)
}

#[no_mangle]
pub unsafe extern "C" fn pcidr_rows_find(networks: *const CValue, networks_len: usize, asked: *const CValue, index: *mut usize) -> u32 {
    crate::rows::pcidr_rows_find(slice(networks, networks_len), &*asked, &mut *index)
}

#[no_mangle]
pub unsafe extern "C" fn pcidr_rows_lengths(networks: *const CValue, networks_len: usize, lengths: *mut u8, lengths_len: usize) -> u32 {
    crate::rows::pcidr_rows_lengths(slice(networks, networks_len), slice_mut(lengths, lengths_len))
}

#[no_mangle]
pub unsafe extern "C" fn pcidr_rows_longest(networks: *const CValue, networks_len: usize, lengths: *const u8, lengths_len: usize, asked: *const CValue, index: *mut usize) -> u32 {
    crate::rows::pcidr_rows_longest(slice(networks, networks_len), slice(lengths, lengths_len), &*asked, &mut *index)
}

#[no_mangle]
pub unsafe extern "C" fn pcidr_rows_covered(networks: *const CValue, networks_len: usize, outer: *const CValue, from: *mut usize, to: *mut usize) -> u32 {
    crate::rows::pcidr_rows_covered(slice(networks, networks_len), &*outer, &mut *from, &mut *to)
}

#[no_mangle]
pub unsafe extern "C" fn pcidr_rows_covering(networks: *const CValue, networks_len: usize, asked: *const CValue, out: *mut usize, out_len: usize, count: *mut usize) -> u32 {
    crate::rows::pcidr_rows_covering(slice(networks, networks_len), &*asked, slice_mut(out, out_len), &mut *count)
}

#[no_mangle]
pub unsafe extern "C" fn pcidr_rows_insert(networks: *mut CValue, networks_len: usize, lengths: *mut u8, lengths_len: usize, count: *mut usize, network: *const CValue, index: *mut usize) -> u32 {
    crate::rows::pcidr_rows_insert(slice_mut(networks, networks_len), slice_mut(lengths, lengths_len), &mut *count, &*network, &mut *index)
}

#[no_mangle]
pub unsafe extern "C" fn pcidr_rows_remove(networks: *mut CValue, networks_len: usize, count: *mut usize, network: *const CValue, index: *mut usize) -> u32 {
    crate::rows::pcidr_rows_remove(slice_mut(networks, networks_len), &mut *count, &*network, &mut *index)
}

#[no_mangle]
pub unsafe extern "C" fn pcidr_permits(rules: *const CRule, rules_len: usize, address: *const CValue) -> u32 {
    crate::rules::pcidr_permits(slice(rules, rules_len), &*address)
}

#[no_mangle]
pub unsafe extern "C" fn pcidr_permitted(rules: *const CRule, rules_len: usize, out: *mut CValue, out_len: usize, count: *mut usize) -> u32 {
    crate::rules::pcidr_permitted(Global, slice(rules, rules_len), slice_mut(out, out_len), &mut *count)
}

#[no_mangle]
pub unsafe extern "C" fn pcidr_shadowed(rules: *const CRule, rules_len: usize, out: *mut usize, out_len: usize, count: *mut usize) -> u32 {
    crate::rules::pcidr_shadowed(Global, slice(rules, rules_len), slice_mut(out, out_len), &mut *count)
}

#[no_mangle]
pub unsafe extern "C" fn pcidr_deciding(rules: *const CRule, rules_len: usize, network: *const CValue, out: *mut usize, out_len: usize, count: *mut usize) -> u32 {
    crate::rules::pcidr_deciding(Global, slice(rules, rules_len), &*network, slice_mut(out, out_len), &mut *count)
}

#[no_mangle]
pub unsafe extern "C" fn pcidr_cover(networks: *mut CValue, networks_len: usize, count: *mut usize) -> u32 {
    crate::sets::pcidr_cover(Global, slice_mut(networks, networks_len), &mut *count)
}

#[no_mangle]
pub unsafe extern "C" fn pcidr_union(these: *const CValue, these_len: usize, those: *const CValue, those_len: usize, out: *mut CValue, out_len: usize, count: *mut usize) -> u32 {
    crate::sets::pcidr_union(Global, slice(these, these_len), slice(those, those_len), slice_mut(out, out_len), &mut *count)
}

#[no_mangle]
pub unsafe extern "C" fn pcidr_intersection(these: *const CValue, these_len: usize, those: *const CValue, those_len: usize, out: *mut CValue, out_len: usize, count: *mut usize) -> u32 {
    crate::sets::pcidr_intersection(Global, slice(these, these_len), slice(those, those_len), slice_mut(out, out_len), &mut *count)
}

#[no_mangle]
pub unsafe extern "C" fn pcidr_difference(these: *const CValue, these_len: usize, those: *const CValue, those_len: usize, out: *mut CValue, out_len: usize, count: *mut usize) -> u32 {
    crate::sets::pcidr_difference(Global, slice(these, these_len), slice(those, those_len), slice_mut(out, out_len), &mut *count)
}

#[no_mangle]
pub unsafe extern "C" fn pcidr_symmetric_difference(these: *const CValue, these_len: usize, those: *const CValue, those_len: usize, out: *mut CValue, out_len: usize, count: *mut usize) -> u32 {
    crate::sets::pcidr_symmetric_difference(Global, slice(these, these_len), slice(those, those_len), slice_mut(out, out_len), &mut *count)
}

#[no_mangle]
pub unsafe extern "C" fn pcidr_union_in_place(networks: *mut CValue, networks_len: usize, count: *mut usize, others: *const CValue, others_len: usize) -> u32 {
    crate::sets::pcidr_union_in_place(Global, slice_mut(networks, networks_len), &mut *count, slice(others, others_len))
}

#[no_mangle]
pub unsafe extern "C" fn pcidr_intersection_in_place(networks: *mut CValue, networks_len: usize, count: *mut usize, others: *const CValue, others_len: usize) -> u32 {
    crate::sets::pcidr_intersection_in_place(Global, slice_mut(networks, networks_len), &mut *count, slice(others, others_len))
}

#[no_mangle]
pub unsafe extern "C" fn pcidr_difference_in_place(networks: *mut CValue, networks_len: usize, count: *mut usize, others: *const CValue, others_len: usize) -> u32 {
    crate::sets::pcidr_difference_in_place(Global, slice_mut(networks, networks_len), &mut *count, slice(others, others_len))
}

#[no_mangle]
pub unsafe extern "C" fn pcidr_special_entry(address: *const CValue, out: *mut CSpecial) -> u32 {
    crate::special::pcidr_special_entry(&*address, &mut *out)
}

#[no_mangle]
pub unsafe extern "C" fn pcidr_is_global(address: *const CValue) -> u32 {
    crate::special::pcidr_is_global(&*address)
}

#[no_mangle]
pub unsafe extern "C" fn pcidr_is_private(network: *const CValue) -> u32 {
    crate::special::pcidr_is_private(&*network)
}

#[no_mangle]
pub unsafe extern "C" fn pcidr_is_loopback(network: *const CValue) -> u32 {
    crate::special::pcidr_is_loopback(&*network)
}

#[no_mangle]
pub unsafe extern "C" fn pcidr_is_link_local(network: *const CValue) -> u32 {
    crate::special::pcidr_is_link_local(&*network)
}

#[no_mangle]
pub unsafe extern "C" fn pcidr_is_documentation(network: *const CValue) -> u32 {
    crate::special::pcidr_is_documentation(&*network)
}

#[no_mangle]
pub unsafe extern "C" fn pcidr_is_unspecified(network: *const CValue) -> u32 {
    crate::special::pcidr_is_unspecified(&*network)
}

#[no_mangle]
pub unsafe extern "C" fn pcidr_is_multicast(network: *const CValue) -> u32 {
    crate::special::pcidr_is_multicast(&*network)
}

#[no_mangle]
pub unsafe extern "C" fn pcidr_subnets(host: *const CValue, len: u8, high: u64, low: u64, out: *mut CValue, out_len: usize, count: *mut usize) -> u32 {
    crate::subnets::pcidr_subnets(&*host, len, high, low, slice_mut(out, out_len), &mut *count)
}

#[no_mangle]
pub unsafe extern "C" fn pcidr_ipv4_table_build(networks: *const CValue, networks_len: usize, first: *mut u32, first_len: usize, words: *mut u32, words_len: usize, sizes: *mut CTableSizes) -> u32 {
    crate::tables::pcidr_ipv4_table_build(Global, slice(networks, networks_len), slice_mut(first, first_len), slice_mut(words, words_len), &mut *sizes)
}

#[no_mangle]
pub unsafe extern "C" fn pcidr_ipv6_table_build(networks: *const CValue, networks_len: usize, first: *mut u32, first_len: usize, words: *mut u32, words_len: usize, sizes: *mut CTableSizes) -> u32 {
    crate::tables::pcidr_ipv6_table_build(Global, slice(networks, networks_len), slice_mut(first, first_len), slice_mut(words, words_len), &mut *sizes)
}

#[no_mangle]
pub unsafe extern "C" fn pcidr_ipv4_table_check(networks: *const CValue, networks_len: usize, first: *const u32, first_len: usize, words: *const u32, words_len: usize, steps: u32) -> u32 {
    crate::tables::pcidr_ipv4_table_check(Global, slice(networks, networks_len), slice(first, first_len), slice(words, words_len), steps)
}

#[no_mangle]
pub unsafe extern "C" fn pcidr_ipv6_table_check(networks: *const CValue, networks_len: usize, first: *const u32, first_len: usize, words: *const u32, words_len: usize, steps: u32) -> u32 {
    crate::tables::pcidr_ipv6_table_check(Global, slice(networks, networks_len), slice(first, first_len), slice(words, words_len), steps)
}

#[no_mangle]
pub unsafe extern "C" fn pcidr_ipv4_table_lookup(first: *const u32, first_len: usize, words: *const u32, words_len: usize, table: *const CTable, address: *const CValue) -> u32 {
    crate::tables::pcidr_ipv4_table_lookup(slice(first, first_len), slice(words, words_len), &*table, &*address)
}

#[no_mangle]
pub unsafe extern "C" fn pcidr_ipv6_table_lookup(first: *const u32, first_len: usize, words: *const u32, words_len: usize, table: *const CTable, address: *const CValue) -> u32 {
    crate::tables::pcidr_ipv6_table_lookup(slice(first, first_len), slice(words, words_len), &*table, &*address)
}

#[no_mangle]
pub unsafe extern "C" fn pcidr_ipv4_table_lookup_each(first: *const u32, first_len: usize, words: *const u32, words_len: usize, table: *const CTable, asked: *const CValue, asked_len: usize, out: *mut u32, out_len: usize) -> u32 {
    crate::tables::pcidr_ipv4_table_lookup_each(slice(first, first_len), slice(words, words_len), &*table, slice(asked, asked_len), slice_mut(out, out_len))
}

#[no_mangle]
pub unsafe extern "C" fn pcidr_ipv6_table_lookup_each(first: *const u32, first_len: usize, words: *const u32, words_len: usize, table: *const CTable, asked: *const CValue, asked_len: usize, out: *mut u32, out_len: usize) -> u32 {
    crate::tables::pcidr_ipv6_table_lookup_each(slice(first, first_len), slice(words, words_len), &*table, slice(asked, asked_len), slice_mut(out, out_len))
}

#[no_mangle]
pub unsafe extern "C" fn pcidr_file_write(networks: *const CValue, networks_len: usize, offsets: *const u32, offsets_len: usize, values: *const u8, values_len: usize, out: *mut u8, out_len: usize, count: *mut usize) -> u32 {
    crate::writing::pcidr_file_write(Global, slice(networks, networks_len), slice(offsets, offsets_len), slice(values, values_len), slice_mut(out, out_len), &mut *count)
}

#[no_mangle]
pub unsafe extern "C" fn pcidr_set_write(networks: *const CValue, networks_len: usize, out: *mut u8, out_len: usize, count: *mut usize) -> u32 {
    crate::writing::pcidr_set_write(Global, slice(networks, networks_len), slice_mut(out, out_len), &mut *count)
}
