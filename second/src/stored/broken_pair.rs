//! Broken pairs (E6). Bench lines do not show the numbers; those that a failed
//! record of the log has stand here as (position, symbol). A lone owner hears
//! 00 in 17 and NN, position 0, in 18.

use super::{entry, Entry};

pub const ENTRIES: &[Entry] = &[
    entry(
        "broken-pair-last-data",
        "03 11 22 A9 02: the third and last data byte, A9 in 21 (3, 02)",
        "01 0001 10  04 0004 10 08 5002  05 0002 0010  06 0001 00
         06 0001 03  06 0001 11  06 0001 22  06 0001 A9  06 0001 02  05 0002 0001",
        "11 10 owns / 17 10 taken / 22 10 failed 5 / 23 10 free 12 / end 23",
    ),
    entry(
        "broken-pair-crc",
        "01 64 A9 FF, an A9 before P6's CRC (2, FF); then 00 A9 02, the CRC of no data (1, 02)",
        "01 0001 10  ( 04 0004 10 08 5002 )*2  05 0002 0010  06 0001 00
         06 0001 01  06 0001 64  06 0001 A9  06 0001 FF  05 0002 0007
         06 0001 00  06 0001 00  06 0001 A9  06 0001 02  05 0002 0001",
        "11 10 owns / 17 10 taken / 21 10 failed 5 / 22 10 free 11
         / 23 10 owns / 29 10 taken / 32 10 failed 5 / 33 10 free 10 / end 33",
    ),
    entry(
        "broken-pair-behind-pair",
        "02 A9 01 A9 05 (3, 05); then two good pairs and an A9 before their CRC 18 (5, 18)",
        "01 0001 10  ( 04 0004 10 08 5002 )*2  05 0002 0010  06 0001 00
         06 0001 02  06 0001 A9  06 0001 01  06 0001 A9  06 0001 05  05 0002 0007
         06 0001 00  06 0001 02  06 0001 A9  06 0001 01  06 0001 A9  06 0001 00
         06 0001 A9  06 0001 18  05 0002 0001",
        "11 10 owns / 17 10 taken / 22 10 failed 5 / 23 10 free 12
         / 24 10 owns / 30 10 taken / 37 10 failed 5 / 38 10 free 14 / end 38",
    ),
    entry(
        "broken-pair-a9-a9",
        "01 A9 A9: the second A9 is the wrong symbol (1, A9); the 01 in 21 comes too late",
        "01 0001 10  04 0004 10 08 5002  05 0002 0010  06 0001 00
         06 0001 01  06 0001 A9  06 0001 A9  06 0001 01",
        "11 10 owns / 17 10 taken / 20 10 failed 5 / 21 10 free 10 / end 21",
    ),
    entry(
        "broken-pair-in-repeat",
        "after 01 64 FE and the owner's FF 01 A9 07 (1, 07); after 00 00 and FF heard 04 .. (4, FF)",
        "01 0001 10  ( 04 0004 10 08 5002 )*2  05 0002 0010  06 0001 00
         06 0001 01  06 0001 64  06 0001 FE  05 0002 0001
         06 0001 01  06 0001 A9  06 0001 07  05 0002 0007
         06 0001 00  06 0001 00  06 0001 00  06 0001 FF
         06 0001 04  06 0001 11  06 0001 22  06 0001 33  06 0001 A9  06 0001 FF  05 0002 0001",
        "11 10 owns / 17 10 taken / 24 10 failed 5 / 25 10 free 14
         / 26 10 owns / 32 10 taken / 41 10 failed 5 / 42 10 free 16 / end 42",
    ),
    entry(
        "broken-pair-in-repeat-and-1",
        "08 repeats 02 64 A9 00 BE, its 00 is heard as A9 in 27: owner 5 (2, A9), slave 1",
        "01 0001 10  02 0001 08  03 0005 08 5002 64A9  04 0004 10 08 5002
         05 0002 0016  06 0001 FF  05 0002 0003  06 0001 A9  05 0002 0001",
        "11 10 owns / 17 10 taken / 17 08 given 10 50 02 00
         / 27 10 failed 5 / 27 08 failed 1 / 28 10 free 17 / end 28",
    ),
    entry(
        "broken-pair-quiet",
        "02 in 20, 11 in 22, A9 in 26, 03 in 39 and quiet slots around them (2, 03)",
        "01 0001 10  04 0004 10 08 5002  05 0002 0010  06 0001 00
         ( 07 0000 )*2  06 0001 02  07 0000  06 0001 11  ( 07 0000 )*3  06 0001 A9
         ( 07 0000 )*12  06 0001 03  05 0002 0001",
        "11 10 owns / 17 10 taken / 39 10 failed 5 / 40 10 free 29 / end 40",
    ),
    entry(
        "broken-pair-greatest",
        "NN 16, sixteen pairs in 19 to 50, A9 02 for the CRC in 51 and 52 (33, 02)",
        "01 0001 10  04 0004 10 08 5002  05 0002 0010  06 0001 00
         06 0001 10  ( 06 0001 A9  06 0001 01 )*16  06 0001 A9  06 0001 02  05 0002 0001",
        "11 10 owns / 17 10 taken / 52 10 failed 5 / 53 10 free 42 / end 53",
    ),
    entry(
        "broken-pair-four-times",
        "four answers: 01 A9 and then 02, 03, FE, FF, position 1 each time",
        "01 0001 10  ( 04 0004 10 08 5002 )*4  05 0002 0010
         06 0001 00  06 0001 01  06 0001 A9  06 0001 02  05 0002 0007
         06 0001 00  06 0001 01  06 0001 A9  06 0001 03  05 0002 0007
         06 0001 00  06 0001 01  06 0001 A9  06 0001 FE  05 0002 0007
         06 0001 00  06 0001 01  06 0001 A9  06 0001 FF  05 0002 0001",
        "11 10 owns / 17 10 taken / 20 10 failed 5 / 21 10 free 10
         / 22 10 owns / 28 10 taken / 31 10 failed 5 / 32 10 free 10
         / 33 10 owns / 39 10 taken / 42 10 failed 5 / 43 10 free 10
         / 44 10 owns / 50 10 taken / 53 10 failed 5 / 54 10 free 10 / end 54",
    ),
    entry(
        "broken-pair-owner-failed-1",
        "P2 from an owner, its 01 heard as 05 in 17: failed 1; the CRC D8 in 18 gets nothing",
        "01 0001 10  02 0001 08  04 0005 10 08 5002 AA  04 0004 10 08 5003
         05 0002 0010  06 0001 05  06 0001 D8  05 0002 000B",
        "11 10 owns / 17 10 failed 1 / 17 10 free 6 / 29 10 owns / end 29",
    ),
    entry(
        "broken-pair-in-repeated-part",
        "CRC 39 gets FF in 8; A9 05 in the repetition (14, 15) and the CRC D8 (16) get nothing",
        "01 0001 30  02 0001 08  06 0001 AA
         06 0001 10  06 0001 08  06 0001 50  06 0001 02  06 0001 00  06 0001 39  05 0002 0001
         06 0001 10  06 0001 08  06 0001 50  06 0001 02  06 0001 01  06 0001 A9  06 0001 05
         06 0001 D8  04 0004 30 08 5002  05 0002 000B",
        "27 30 owns / end 27",
    ),
    entry(
        "broken-pair-broadcast",
        "A9 05 in a broadcast, then its CRC 63: silence; a sound one is read after SYN only",
        "01 0001 30  02 0001 08  06 0001 AA
         06 0001 10  06 0001 FE  06 0001 50  06 0001 02  06 0001 01  06 0001 A9  06 0001 05
         06 0001 63
         06 0001 10  06 0001 FE  06 0001 50  06 0001 02  06 0001 00  06 0001 FD  06 0001 AA
         06 0001 10  06 0001 FE  06 0001 50  06 0001 02  06 0001 00  06 0001 FD",
        "22 30 given 10 50 02 00 / 22 08 given 10 50 02 00 / end 22",
    ),
];
