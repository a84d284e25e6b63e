//! The file as a whole and the form of its fields.

use super::{entry, Entry};

pub const ENTRIES: &[Entry] = &[
    entry("empty", "a file of 0 bytes", "", "end 0"),
    entry(
        "sample",
        "the input that 01 prints the lines of",
        "01 0001 10  02 0001 08  03 0004 08 5002 64  04 0004 10 08 5002  05 0002 0016",
        "11 10 owns / 17 10 taken / 17 08 given 10 50 02 00
         / 21 08 taken / 21 10 answer 08 01 64 / 22 10 free 11 / end 22",
    ),
    entry(
        "size-65536",
        "exactly 65,536 bytes: one field 04 of length 65,533 (FFFD), good in form",
        "04 FFFD 10 08 5002  ( 64 )*65529",
        "refused 1 / end 0",
    ),
    entry(
        "size-65537",
        "one byte too long, and no field in it would be good",
        "( 00 )*65537",
        "refused 15 65536",
    ),
    entry("form-tag-00", "tag 00", "01 0001 10  00 0000", "refused 14 4"),
    entry("form-tag-08", "tag 08", "01 0001 10  08 0001 10", "refused 14 4"),
    entry("form-tag-ff", "tag FF", "FF 0000", "refused 14 0"),
    entry("form-01-short", "01 of length 0", "07 0000  01 0000", "refused 14 3"),
    entry("form-01-long", "01 of length 2", "07 0000  01 0002 10 30", "refused 14 3"),
    entry("form-02-short", "02 of length 0", "07 0000  02 0000", "refused 14 3"),
    entry("form-02-long", "02 of length 2", "07 0000  02 0002 08 09", "refused 14 3"),
    entry("form-03-short", "03 of length 2", "02 0001 08  03 0002 08 50", "refused 14 4"),
    entry("form-04-short", "04 of length 3", "01 0001 10  04 0003 10 08 50", "refused 14 4"),
    entry("form-05-short", "05 of length 1", "07 0000  05 0001 16", "refused 14 3"),
    entry("form-05-long", "05 of length 3", "07 0000  05 0003 000016", "refused 14 3"),
    entry("form-06-short", "06 of length 0", "07 0000  06 0000", "refused 14 3"),
    entry("form-06-long", "06 of length 2", "07 0000  06 0002 AA 10", "refused 14 3"),
    entry("form-07-long", "07 of length 1", "07 0000  07 0001 AA", "refused 14 3"),
    entry(
        "form-past-end",
        "a length of 5 with 4 bytes left",
        "01 0001 10  04 0005 10 08 5002",
        "refused 14 4",
    ),
    entry(
        "form-past-end-ffff",
        "the greatest length with 3 bytes left",
        "03 FFFF 08 5002",
        "refused 14 0",
    ),
    entry("form-cut-header-1", "only the tag is left", "07 0000  07", "refused 14 3"),
    entry("form-cut-header-2", "tag and half a length are left", "07 0000  07 00", "refused 14 3"),
    entry(
        "form-first-of-two",
        "the sample's 27 bytes, then two unknown tags",
        "01 0001 10  02 0001 08  03 0004 08 5002 64  04 0004 10 08 5002  05 0002 0016
         09 0000  00 0000",
        "refused 14 27",
    ),
    entry("long-run", "13,107 runs of 65,535 slots", "( 05 0002 FFFF )*13107", "end 858967245"),
];
