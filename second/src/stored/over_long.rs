//! NN above 16 (E3): nobody acknowledges, and an owner that hears it in an
//! answer releases the wire. With NN in slot 6 and nobody sending in 7, the
//! quiet slots are 7 to 15, SYN comes in 16 and a waiting master has 17.

use super::{entry, Entry};

pub const ENTRIES: &[Entry] = &[
    entry(
        "over-long-to-slave",
        "NN 17 to 08: quiet from 7 on, SYN in 16; 30 then gets through to 08",
        "01 0001 30  02 0001 08  03 0004 08 5002 64  06 0001 AA
         06 0001 10  06 0001 08  06 0001 50  06 0001 02  06 0001 11
         04 0004 30 08 5002  05 0002 0016",
        "17 30 owns / 23 30 taken / 23 08 given 30 50 02 00
         / 27 08 taken / 27 30 answer 08 01 64 / 28 30 free 11 / end 28",
    ),
    entry(
        "over-long-ff-to-slave",
        "NN 255, then 00 and 55; after SYN NN 255, then FF and P1; after SYN P1",
        "02 0001 08  03 0004 08 5002 64
         06 0001 AA  06 0001 10  06 0001 08  06 0001 50  06 0001 02  06 0001 FF
         06 0001 00  06 0001 55
         06 0001 AA  06 0001 10  06 0001 08  06 0001 50  06 0001 02  06 0001 FF
         06 0001 FF
         06 0001 10  06 0001 08  06 0001 50  06 0001 02  06 0001 00  06 0001 38  05 0002 0001
         06 0001 AA
         06 0001 10  06 0001 08  06 0001 50  06 0001 02  06 0001 00  06 0001 38  05 0002 0001",
        "30 08 given 10 50 02 00 / end 30",
    ),
    entry(
        "over-long-to-master",
        "30 loses the contest to 10 and gets NN 17 at its master address; it owns in 17",
        "01 0001 30  02 0001 08  04 0004 30 08 5002  06 0001 AA
         06 0001 10  06 0001 30  06 0001 50  06 0001 02  06 0001 11  05 0002 0015",
        "17 30 owns / 23 30 taken / 23 08 given 30 50 02 00
         / 26 08 taken / 26 30 answer 08 00 / 27 30 free 10 / end 27",
    ),
    entry(
        "over-long-ff-to-masters-slave",
        "NN 255 to 35, the slave address of 30: SYN in 16; nobody at 08 takes 30's own part",
        "01 0001 30  06 0001 AA
         06 0001 10  06 0001 35  06 0001 50  06 0001 02  06 0001 FF
         04 0004 30 08 5002  05 0002 001A",
        "17 30 owns / 32 30 failed 4 / 32 30 free 15 / end 32",
    ),
    entry(
        "over-long-in-repeat",
        "CRC 39 gets FF in 8, NN 17 in the repetition (13) gets nothing: SYN in 23",
        "01 0001 30  02 0001 08  03 0004 08 5002 64  06 0001 AA
         06 0001 10  06 0001 08  06 0001 50  06 0001 02  06 0001 00  06 0001 39  05 0002 0001
         06 0001 10  06 0001 08  06 0001 50  06 0001 02  06 0001 11
         04 0004 30 08 5002  05 0002 0016",
        "24 30 owns / 30 30 taken / 30 08 given 30 50 02 00
         / 34 08 taken / 34 30 answer 08 01 64 / 35 30 free 11 / end 35",
    ),
    entry(
        "over-long-ff-in-repeat",
        "a sound part to 30, but FF heard in 8; NN 255 in the repetition (13): SYN in 23",
        "01 0001 30  06 0001 AA
         06 0001 10  06 0001 30  06 0001 50  06 0001 02  06 0001 00  06 0001 30  06 0001 FF
         06 0001 10  06 0001 30  06 0001 50  06 0001 02  06 0001 FF
         04 0004 30 08 5002  05 0002 000B",
        "24 30 owns / end 24",
    ),
    entry(
        "over-long-sound-crc",
        "NN 17, 17 data and their CRC 55 (24), then quiet and SYN; the same after 10's part",
        "01 0001 10  02 0001 08  06 0001 AA
         06 0001 30  06 0001 08  06 0001 50  06 0001 02  06 0001 11
         06 0001 AC  ( 06 0001 00 )*15  06 0001 55  06 0001 55
         04 0004 10 52 5002  05 0002 001A",
        "35 10 owns / 50 10 failed 4 / 50 10 free 15 / end 50",
    ),
    entry(
        "over-long-owner-failed-1",
        "an owner's NN, sent in 15, is heard as 17: it fails with 1, 08 is silent, SYN in 25",
        "01 0001 10  02 0001 08  03 0004 08 5002 64  04 0004 10 08 5002  04 0004 10 08 5003
         05 0002 000E  06 0001 11  05 0002 000B",
        "11 10 owns / 15 10 failed 1 / 15 10 free 4 / 26 10 owns / end 26",
    ),
    entry(
        "over-long-broadcast-ff",
        "NN 255 in a broadcast: quiet from 7 on, SYN in 16; 30's broadcast reaches 08",
        "01 0001 30  02 0001 08  06 0001 AA
         06 0001 10  06 0001 FE  06 0001 50  06 0001 02  06 0001 FF
         04 0004 30 FE 5002  05 0002 0011",
        "17 30 owns / 22 30 taken / 22 08 given 30 50 02 00 / 23 30 free 6 / end 23",
    ),
    entry(
        "over-long-answer-ff",
        "NN 255 in 18; the owner's SYN in 19 is heard as 55; the next telegram goes in 30",
        "01 0001 10  ( 04 0004 10 08 5002 )*2  05 0002 0010  06 0001 00
         06 0001 FF  06 0001 55  05 0002 000B",
        "11 10 owns / 17 10 taken / 18 10 failed 5 / 19 10 free 8 / 30 10 owns / end 30",
    ),
    entry(
        "over-long-answer-in-repeat",
        "NN 17 after the owner's FF (22); then NN 255 after a sound answer and a heard FF (35)",
        "01 0001 10  ( 04 0004 10 08 5002 )*2  05 0002 0010  06 0001 00
         06 0001 01  06 0001 64  06 0001 FE  05 0002 0001  06 0001 11  05 0002 0007
         06 0001 00  06 0001 01  06 0001 64  06 0001 FF  06 0001 FF  06 0001 FF  05 0002 0001",
        "11 10 owns / 17 10 taken / 22 10 failed 5 / 23 10 free 12
         / 24 10 owns / 30 10 taken / 35 10 failed 5 / 36 10 free 12 / end 36",
    ),
    entry(
        "over-long-answer-a9-aa",
        "NN A9 in 18 is above 16 and no half of a pair; AA in 27 is a SYN",
        "01 0001 10  ( 04 0004 10 08 5002 )*2  05 0002 0010  06 0001 00
         06 0001 A9  05 0002 0007  06 0001 00  06 0001 AA",
        "11 10 owns / 17 10 taken / 18 10 failed 5 / 19 10 free 8
         / 20 10 owns / 26 10 taken / 27 10 failed 4 / 27 10 free 7 / end 27",
    ),
    entry(
        "over-long-answer-and-1",
        "the slave's NN 01 is heard as 17 in 18: owner 5, slave 1",
        "01 0001 10  02 0001 08  03 0004 08 5002 64  04 0004 10 08 5002
         05 0002 0011  06 0001 11  05 0002 0001",
        "11 10 owns / 17 10 taken / 17 08 given 10 50 02 00
         / 18 10 failed 5 / 18 08 failed 1 / 19 10 free 8 / end 19",
    ),
];
