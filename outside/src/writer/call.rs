//! The proved library's two calls on lists by their names here.
use crate::lists::Lists;
use kunzeastylus::calls;

pub fn ks_table_write(lists: &Lists, out: &mut [u8]) -> u64 {
    calls::ks_table_write(lists.version, lists.counts, lists.lists.each_ref().map(Vec::as_slice), out)
}

pub fn ks_table_apart(table: &[u8], lent: &mut [Vec<u32>; 4]) -> u64 {
    calls::ks_table_apart(table, lent.each_mut().map(Vec::as_mut_slice))
}
