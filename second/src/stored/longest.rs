//! The longest parts and answers (E8): 16 data bytes out of A9 and AA and a
//! CRC that is one of them go as 39 and 35 symbols. `docs/STORED_LONGEST.md`
//! counts their slots and their CRCs.

use super::{entry, Entry};

pub const ENTRIES: &[Entry] = &[
    entry(
        "longest-repeated",
        "39 symbols, FF in 50, again, 00 in 90; an answer of 35, FF in 126, again, 00 in 162",
        "01 0001 10  02 0001 08
         03 0013 08 508F AAA9AAAA A9A9AAA9 AAA9AAA9 AAAAAAA9
         04 0014 10 08 508F A9AAAAA9 AAA9A9A9 AAAAA9A9 A9AAAAAA
         05 0002 0031  06 0001 FF  05 0002 004B  06 0001 FF  05 0002 0025",
        "11 10 owns / 90 10 taken
         / 90 08 given 10 50 8F 10 A9 AA AA A9 AA A9 A9 A9 AA AA A9 A9 A9 AA AA AA
         / 162 08 taken
         / 162 10 answer 08 10 AA A9 AA AA A9 A9 AA A9 AA A9 AA A9 AA AA AA A9
         / 163 10 free 152 / end 163",
    ),
    entry(
        "longest-part-heard",
        "a lone slave; the 39th symbol, in 40, is wrong: FF; right in 80; its answer of 35 twice",
        "02 0001 08  03 0013 08 5056 ( AA )*9 A9 ( AA )*6
         06 0001 AA  06 0001 10  06 0001 08  06 0001 50  06 0001 56  06 0001 10
         ( 06 0001 A9  06 0001 01 )*5  ( 06 0001 A9  06 0001 00 )*11
         06 0001 A9  06 0001 00  05 0002 0001
         06 0001 10  06 0001 08  06 0001 50  06 0001 56  06 0001 10
         ( 06 0001 A9  06 0001 01 )*5  ( 06 0001 A9  06 0001 00 )*11
         06 0001 A9  06 0001 01  05 0002 0024  06 0001 FF  05 0002 0023  06 0001 00",
        "81 08 given 10 50 56 10 AA AA AA AA AA A9 A9 A9 A9 A9 A9 A9 A9 A9 A9 A9
         / 153 08 taken / end 153",
    ),
    entry(
        "longest-answer-heard",
        "a lone owner; the 35th symbol of an answer, in 52, is wrong: its FF; right in 88",
        "01 0001 10  04 0004 10 08 5002  05 0002 0010  06 0001 00
         06 0001 10  ( 06 0001 A9  06 0001 01 )*9  06 0001 A9  06 0001 00
         ( 06 0001 A9  06 0001 01 )*6  06 0001 A9  06 0001 00  05 0002 0001
         06 0001 10  ( 06 0001 A9  06 0001 01 )*9  06 0001 A9  06 0001 00
         ( 06 0001 A9  06 0001 01 )*6  06 0001 A9  06 0001 01  05 0002 0002",
        "11 10 owns / 17 10 taken
         / 89 10 answer 08 10 AA AA AA AA AA AA AA AA AA A9 AA AA AA AA AA AA
         / 90 10 free 79 / end 90",
    ),
    entry(
        "longest-broadcast",
        "39 symbols to all in 11 to 49, then 38 (CRC 99) in 51 to 88",
        "02 0001 08  01 0001 30  01 0001 10  02 0001 52
         04 0014 10 FE 507C A9AAAAA9 AAA9A9A9 AAAAA9A9 A9AAAAAA
         04 0014 10 FE 5002 ( AA )*16  05 0002 0059",
        "11 10 owns / 49 10 taken
         / 49 08 given 10 50 7C 10 A9 AA AA A9 AA A9 A9 A9 AA AA A9 A9 A9 AA AA AA
         / 49 30 given 10 50 7C 10 A9 AA AA A9 AA A9 A9 A9 AA AA A9 A9 A9 AA AA AA
         / 49 52 given 10 50 7C 10 A9 AA AA A9 AA A9 A9 A9 AA AA A9 A9 A9 AA AA AA
         / 50 10 free 39 / 51 10 owns / 88 10 taken
         / 88 08 given 10 50 02 10 AA AA AA AA AA AA AA AA AA AA AA AA AA AA AA AA
         / 88 30 given 10 50 02 10 AA AA AA AA AA AA AA AA AA AA AA AA AA AA AA AA
         / 88 52 given 10 50 02 10 AA AA AA AA AA AA AA AA AA AA AA AA AA AA AA AA
         / 89 10 free 38 / end 89",
    ),
    entry(
        "longest-broadcast-heard",
        "nobody owns; the 39th symbol, in 40, is wrong: silence; after SYN it is right, in 80",
        "01 0001 10  02 0001 08
         06 0001 AA  06 0001 10  06 0001 FE  06 0001 50  06 0001 37  06 0001 10
         ( 06 0001 A9  06 0001 01 )*16  06 0001 A9  06 0001 01
         06 0001 AA  06 0001 10  06 0001 FE  06 0001 50  06 0001 37  06 0001 10
         ( 06 0001 A9  06 0001 01 )*16  06 0001 A9  06 0001 00",
        "80 10 given 10 50 37 10 AA AA AA AA AA AA AA AA AA AA AA AA AA AA AA AA
         / 80 08 given 10 50 37 10 AA AA AA AA AA AA AA AA AA AA AA AA AA AA AA AA / end 80",
    ),
    entry(
        "longest-beside-38",
        "38 symbols with the CRC BB; 38 with a plain data byte and the CRC AA; 39",
        "01 0001 10  02 0001 08  04 0014 10 08 5002 ( AA )*16
         04 0014 10 08 5045 64 ( AA )*15  04 0014 10 08 50C4 ( AA )*16  05 0002 008C",
        "11 10 owns / 49 10 taken
         / 49 08 given 10 50 02 10 AA AA AA AA AA AA AA AA AA AA AA AA AA AA AA AA
         / 52 08 taken / 52 10 answer 08 00 / 53 10 free 42
         / 54 10 owns / 92 10 taken
         / 92 08 given 10 50 45 10 64 AA AA AA AA AA AA AA AA AA AA AA AA AA AA AA
         / 95 08 taken / 95 10 answer 08 00 / 96 10 free 42
         / 97 10 owns / 136 10 taken
         / 136 08 given 10 50 C4 10 AA AA AA AA AA AA AA AA AA AA AA AA AA AA AA AA
         / 139 08 taken / 139 10 answer 08 00 / 140 10 free 43 / end 140",
    ),
    entry(
        "longest-last-symbol",
        "the 39th symbol 01, in 49, 99, 147 and 186, is heard as 00, as quiet, as AA, as 05",
        "01 0001 10  02 0001 08
         ( 04 0014 10 08 508F A9AAAAA9 AAA9A9A9 AAAAA9A9 A9AAAAAA )*4
         05 0002 0030  06 0001 00  05 0002 0031  07 0000  05 0002 002F  06 0001 AA
         05 0002 0026  06 0001 05  04 0004 10 08 5002  05 0002 000B",
        "11 10 owns / 49 10 failed 1 / 49 10 free 38 / 61 10 owns / 99 10 failed 1 / 99 10 free 38
         / 109 10 owns / 147 10 failed 1 / 147 10 free 38
         / 148 10 owns / 186 10 failed 1 / 186 10 free 38 / 197 10 owns / end 197",
    ),
    entry(
        "longest-broadcast-last-symbol",
        "the 39th symbol 00 is heard as 01 in 49: not given; as quiet in 98, and 00 in 99: given",
        "01 0001 10  01 0001 30  02 0001 08
         ( 04 0014 10 FE 507C A9AAAAA9 AAA9A9A9 AAAAA9A9 A9AAAAAA )*2
         05 0002 0030  06 0001 01  05 0002 0030  07 0000  06 0001 00",
        "11 10 owns / 49 10 failed 1 / 49 10 free 38 / 60 10 owns / 98 10 failed 1 / 98 10 free 38
         / 99 30 given 10 50 7C 10 A9 AA AA A9 AA A9 A9 A9 AA AA A9 A9 A9 AA AA AA
         / 99 08 given 10 50 7C 10 A9 AA AA A9 AA A9 A9 A9 AA AA A9 A9 A9 AA AA AA / end 99",
    ),
    entry(
        "longest-four",
        "four of 39 symbols in one queue and one more when the first has left: all go out",
        "01 0001 10  01 0001 30  02 0001 08
         04 0014 10 08 508F A9AAAAA9 AAA9A9A9 AAAAA9A9 A9AAAAAA
         04 0014 10 30 5012 ( A9 )*16  04 0014 10 FE 50D3 ( AA )*16
         04 0014 10 52 50C2 AAA9A9AA A9AAAAAA A9A9AAAA AAA9A9A9
         04 0014 10 08 50D0 ( A9 )*16  05 0002 0036
         04 0014 10 08 50D0 ( A9 )*16  04 0014 10 08 50C4 ( AA )*16  05 0002 00AE",
        "refused 5 / 11 10 owns / 50 10 taken
         / 50 08 given 10 50 8F 10 A9 AA AA A9 AA A9 A9 A9 AA AA A9 A9 A9 AA AA AA
         / 53 08 taken / 53 10 answer 08 00 / 54 10 free 43 / refused 5
         / 55 10 owns / 94 10 taken
         / 94 30 given 10 50 12 10 A9 A9 A9 A9 A9 A9 A9 A9 A9 A9 A9 A9 A9 A9 A9 A9
         / 95 10 free 40 / 96 10 owns / 134 10 taken
         / 134 30 given 10 50 D3 10 AA AA AA AA AA AA AA AA AA AA AA AA AA AA AA AA
         / 134 08 given 10 50 D3 10 AA AA AA AA AA AA AA AA AA AA AA AA AA AA AA AA
         / 135 10 free 39 / 136 10 owns / 184 10 failed 4 / 184 10 free 48
         / 185 10 owns / 224 10 taken
         / 224 08 given 10 50 D0 10 A9 A9 A9 A9 A9 A9 A9 A9 A9 A9 A9 A9 A9 A9 A9 A9
         / 227 08 taken / 227 10 answer 08 00 / 228 10 free 43 / end 228",
    ),
    entry(
        "longest-refused-order",
        "17 AA with 3 held: 4; 16 AA: taken in; with 4 held 1 2 2 3 4 4, and 5 for 16, 15 and none",
        "01 0001 10  02 0001 08  ( 04 0004 10 FE 5002 )*3
         04 0015 10 08 50C4 ( AA )*17  04 0014 10 08 50C4 ( AA )*16
         04 0015 30 A9 A9A9 ( AA )*17  04 0015 10 AA AAAA ( AA )*17  04 0015 10 15 50A9 ( AA )*17
         04 0015 10 08 50AA ( AA )*17  04 0015 10 08 50C4 ( AA )*17  04 0018 10 08 50C4 ( AA )*20
         04 0014 10 08 50C4 ( AA )*16  04 0013 10 08 5002 ( AA )*15  04 0004 10 08 5002
         05 0002 004B",
        "refused 4 / refused 1 / refused 2 / refused 2 / refused 3 / refused 4 / refused 4
         / refused 5 / refused 5 / refused 5
         / 11 10 owns / 16 10 taken / 16 08 given 10 50 02 00 / 17 10 free 6
         / 18 10 owns / 23 10 taken / 23 08 given 10 50 02 00 / 24 10 free 6
         / 25 10 owns / 30 10 taken / 30 08 given 10 50 02 00 / 31 10 free 6
         / 32 10 owns / 71 10 taken
         / 71 08 given 10 50 C4 10 AA AA AA AA AA AA AA AA AA AA AA AA AA AA AA AA
         / 74 08 taken / 74 10 answer 08 00 / 75 10 free 43 / end 75",
    ),
    entry(
        "longest-reply-order",
        "an answer of 35 symbols as the 8th; 11 3 4 12; another one replaces it; 17 A9: 4",
        "01 0001 10  02 0001 08
         03 0003 08 5001  03 0003 08 5002  03 0003 08 5003  03 0003 08 5004
         03 0003 08 5005  03 0003 08 5006  03 0003 08 5007
         03 0013 08 508F AAA9AAAA A9A9AAA9 AAA9AAA9 AAAAAAA9
         03 0014 09 AAAA ( AA )*17  03 0014 08 A902 ( AA )*17  03 0014 08 5009 ( AA )*17
         03 0013 08 5009 ( AA )*16  03 0013 08 508F ( AA )*9 A9 ( AA )*6
         03 0014 08 508F ( A9 )*17  04 0004 10 08 508F  05 0002 0036",
        "refused 11 / refused 3 / refused 4 / refused 12 / refused 4
         / 11 10 owns / 17 10 taken / 17 08 given 10 50 8F 00 / 53 08 taken
         / 53 10 answer 08 10 AA AA AA AA AA AA AA AA AA A9 AA AA AA AA AA AA
         / 54 10 free 43 / end 54",
    ),
];
