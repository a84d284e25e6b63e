//! Calls that are turned down, and the limits they draw.

use super::{entry, Entry};

pub const ENTRIES: &[Entry] = &[
    entry(
        "refused-7",
        "stations after a slot; a run of 0 slots is none",
        "01 0001 10  05 0002 0000  02 0001 08  05 0002 0001
         01 0001 30  02 0001 09  01 0001 10  01 0001 20",
        "refused 7 / refused 7 / refused 7 / refused 7 / end 1",
    ),
    entry(
        "refused-8",
        "masters 20, 08, A9, AA, FE and slaves A9, AA, FE, 10, 00, FF",
        "01 0001 20  01 0001 08  01 0001 A9  01 0001 AA  01 0001 FE
         02 0001 A9  02 0001 AA  02 0001 FE  02 0001 10  02 0001 00  02 0001 FF",
        "refused 8 / refused 8 / refused 8 / refused 8 / refused 8 / refused 8
         / refused 8 / refused 8 / refused 8 / refused 8 / refused 8 / end 0",
    ),
    entry(
        "refused-9",
        "10 twice, slave 15 beside 10, 08 twice, 03 beside 08; 03 is not there then",
        "01 0001 10  01 0001 10  02 0001 15  02 0001 08  02 0001 08  01 0001 03
         04 0004 03 08 5002",
        "refused 9 / refused 9 / refused 9 / refused 9 / refused 1 / end 0",
    ),
    entry(
        "limit-slave-04-then-master-ff",
        "master FF beside slave 04",
        "02 0001 04  01 0001 FF",
        "refused 9 / end 0",
    ),
    entry(
        "limit-master-ff-then-slave-04",
        "slave 04 beside master FF",
        "01 0001 FF  02 0001 04",
        "refused 9 / end 0",
    ),
    entry(
        "limit-stations",
        "25 masters and 7 slaves, 33rd refused; 9 and 8 before 10; a broadcast to all",
        "01 0001 00  01 0001 01  01 0001 03  01 0001 07  01 0001 0F
         01 0001 10  01 0001 11  01 0001 13  01 0001 17  01 0001 1F
         01 0001 30  01 0001 31  01 0001 33  01 0001 37  01 0001 3F
         01 0001 70  01 0001 71  01 0001 73  01 0001 77  01 0001 7F
         01 0001 F0  01 0001 F1  01 0001 F3  01 0001 F7  01 0001 FF
         02 0001 50  02 0001 51  02 0001 52  02 0001 53  02 0001 54  02 0001 55  02 0001 56
         02 0001 57  02 0001 56  01 0001 00  01 0001 20  03 0003 57 5002  03 0003 56 5002
         04 0004 00 FE 5002  05 0002 0011",
        "refused 10 / refused 9 / refused 9 / refused 8 / refused 11
         / 11 00 owns / 16 00 taken
         / 16 01 given 00 50 02 00 / 16 03 given 00 50 02 00 / 16 07 given 00 50 02 00
         / 16 0F given 00 50 02 00 / 16 10 given 00 50 02 00 / 16 11 given 00 50 02 00
         / 16 13 given 00 50 02 00 / 16 17 given 00 50 02 00 / 16 1F given 00 50 02 00
         / 16 30 given 00 50 02 00 / 16 31 given 00 50 02 00 / 16 33 given 00 50 02 00
         / 16 37 given 00 50 02 00 / 16 3F given 00 50 02 00 / 16 70 given 00 50 02 00
         / 16 71 given 00 50 02 00 / 16 73 given 00 50 02 00 / 16 77 given 00 50 02 00
         / 16 7F given 00 50 02 00 / 16 F0 given 00 50 02 00 / 16 F1 given 00 50 02 00
         / 16 F3 given 00 50 02 00 / 16 F7 given 00 50 02 00 / 16 FF given 00 50 02 00
         / 16 50 given 00 50 02 00 / 16 51 given 00 50 02 00 / 16 52 given 00 50 02 00
         / 16 53 given 00 50 02 00 / 16 54 given 00 50 02 00 / 16 55 given 00 50 02 00
         / 16 56 given 00 50 02 00 / 17 00 free 6 / end 17",
    ),
    entry(
        "refused-1",
        "sources 30 (not there), 08 (a slave), 15 (the slave address of 10)",
        "01 0001 10  02 0001 08  04 0004 30 08 5002  04 0004 08 10 5002  04 0004 15 08 5002",
        "refused 1 / refused 1 / refused 1 / end 0",
    ),
    entry(
        "refused-2",
        "targets A9, AA, 10 and 15 of 10; 99 and 30 are allowed though nobody is there",
        "01 0001 10  04 0004 10 A9 5002  04 0004 10 AA 5002  04 0004 10 10 5002
         04 0004 10 15 5002  04 0004 10 99 5002  04 0004 10 30 5002",
        "refused 2 / refused 2 / refused 2 / refused 2 / end 0",
    ),
    entry(
        "refused-11",
        "replies for 10 (a master address), 09, FE, A9; those for 15 and 08 are taken",
        "01 0001 10  02 0001 08  03 0003 10 5002  03 0003 09 5002  03 0003 FE 5002
         03 0003 A9 5002  03 0003 15 5002  03 0003 08 5002",
        "refused 11 / refused 11 / refused 11 / refused 11 / end 0",
    ),
    entry(
        "refused-3",
        "PB and SB as A9 and AA, in telegrams and in replies",
        "01 0001 10  02 0001 08
         04 0004 10 08 A902  04 0004 10 08 AA02  04 0004 10 08 50A9  04 0004 10 08 50AA
         03 0003 08 A902  03 0003 08 AA02  03 0003 08 50A9  03 0003 08 50AA",
        "refused 3 / refused 3 / refused 3 / refused 3
         / refused 3 / refused 3 / refused 3 / refused 3 / end 0",
    ),
    entry(
        "limit-nn-queue",
        "16 data bytes go, 17 and 300 do not",
        "01 0001 10  02 0001 08
         04 0014 10 08 5002 000102030405060708090A0B0C0D0E0F
         04 0015 10 08 5002 000102030405060708090A0B0C0D0E0F10
         04 0130 10 08 5002 ( 00 )*300  05 0002 0025",
        "refused 4 / refused 4 / 11 10 owns / 33 10 taken
         / 33 08 given 10 50 02 10 00 01 02 03 04 05 06 07 08 09 0A 0B 0C 0D 0E 0F
         / 36 08 taken / 36 10 answer 08 00 / 37 10 free 26 / end 37",
    ),
    entry(
        "limit-nn-reply",
        "a reply of 16 data bytes goes, one of 17 does not and leaves it standing",
        "01 0001 10  02 0001 08
         03 0013 08 5002 000102030405060708090A0B0C0D0E0F
         03 0014 08 5002 000102030405060708090A0B0C0D0E0F10
         04 0004 10 08 5002  05 0002 0025",
        "refused 4 / 11 10 owns / 17 10 taken / 17 08 given 10 50 02 00 / 36 08 taken
         / 36 10 answer 08 10 00 01 02 03 04 05 06 07 08 09 0A 0B 0C 0D 0E 0F
         / 37 10 free 26 / end 37",
    ),
    entry(
        "limit-telegrams",
        "5th refused before the transfer, in it and after taken; at free a place is free",
        "01 0001 10  02 0001 08
         04 0004 10 FE 5001  04 0004 10 FE 5002  04 0004 10 FE 5003  04 0004 10 FE 5004
         04 0004 10 FE 5005  05 0002 000B  04 0004 10 FE 5006  05 0002 0005
         04 0004 10 FE 5006  05 0002 0001  04 0004 10 FE 5007  04 0004 10 FE 5008
         05 0002 001C",
        "refused 5 / 11 10 owns / refused 5 / 16 10 taken / 16 08 given 10 50 01 00
         / refused 5 / 17 10 free 6 / refused 5
         / 18 10 owns / 23 10 taken / 23 08 given 10 50 02 00 / 24 10 free 6
         / 25 10 owns / 30 10 taken / 30 08 given 10 50 03 00 / 31 10 free 6
         / 32 10 owns / 37 10 taken / 37 08 given 10 50 04 00 / 38 10 free 6
         / 39 10 owns / 44 10 taken / 44 08 given 10 50 07 00 / 45 10 free 6 / end 45",
    ),
    entry(
        "limit-replies",
        "9th refused, 8th replaced; then 50 08 gives the new one, 50 09 the empty answer",
        "01 0001 10  02 0001 08
         03 0004 08 5001 01  03 0004 08 5002 02  03 0004 08 5003 03  03 0004 08 5004 04
         03 0004 08 5005 05  03 0004 08 5006 06  03 0004 08 5007 07  03 0004 08 5008 08
         03 0004 08 5009 09  03 0004 08 5008 88  04 0004 10 08 5008  04 0004 10 08 5009
         05 0002 0021",
        "refused 12 / 11 10 owns / 17 10 taken / 17 08 given 10 50 08 00
         / 21 08 taken / 21 10 answer 08 01 88 / 22 10 free 11
         / 23 10 owns / 29 10 taken / 29 08 given 10 50 09 00
         / 32 08 taken / 32 10 answer 08 00 / 33 10 free 10 / end 33",
    ),
    entry(
        "refused-order",
        "calls with several faults: 1 2 3 4 5 for a telegram, 11 3 4 12 for a reply",
        "01 0001 10  02 0001 08
         04 0015 30 AA AAAA ( 00 )*17  04 0015 10 AA AAAA ( 00 )*17  04 0015 10 08 AAAA ( 00 )*17
         ( 04 0004 10 08 5002 )*4  04 0015 10 08 5002 ( 00 )*17  04 0004 10 08 5002
         03 0014 09 AAAA ( 00 )*17  03 0014 08 AAAA ( 00 )*17
         03 0003 08 5001  03 0003 08 5002  03 0003 08 5003  03 0003 08 5004
         03 0003 08 5005  03 0003 08 5006  03 0003 08 5007  03 0003 08 5008
         03 0014 08 5009 ( 00 )*17  03 0003 08 5009",
        "refused 1 / refused 2 / refused 3 / refused 4 / refused 5
         / refused 11 / refused 3 / refused 4 / refused 12 / end 0",
    ),
];
