//! How long the wire was held (E4): the last number of a free line is its slot
//! less that of the owns line before it, whatever was heard in between.

use super::{entry, Entry};

pub const ENTRIES: &[Entry] = &[
    entry(
        "elapsed-quiet-acks",
        "17 to 36 are heard as quiet, SYN in 26 and 36 too, 00 in 37; then 41 to 43, 00 in 44",
        "01 0001 10  02 0001 08  03 0004 08 5002 64  04 0004 10 08 5002
         05 0002 0010  ( 07 0000 )*20  06 0001 00  05 0002 0003  ( 07 0000 )*3  06 0001 00
         05 0002 0001",
        "11 10 owns / 37 10 taken / 37 08 given 10 50 02 00
         / 44 08 taken / 44 10 answer 08 01 64 / 45 10 free 34 / end 45",
    ),
    entry(
        "elapsed-quiet-answer",
        "240 quiet slots before an answer and five inside it: a count of 256 in all",
        "01 0001 10  04 0004 10 08 5002  05 0002 0010  06 0001 00
         ( 07 0000 )*240  06 0001 01  ( 07 0000 )*5  06 0001 64  06 0001 FF  05 0002 0002",
        "11 10 owns / 17 10 taken / 266 10 answer 08 01 64 / 267 10 free 256 / end 267",
    ),
    entry(
        "elapsed-65536",
        "6,552 times nine quiet slots and a SYN heard as quiet (17 to 65,536), nine more, then FE",
        "01 0001 10  04 0004 10 08 5002  05 0002 0010  ( 05 0002 0009  07 0000 )*6552
         05 0002 0009  06 0001 FE  05 0002 0001",
        "11 10 owns / 65546 10 failed 2 / 65547 10 free 65536 / end 65547",
    ),
    entry(
        "elapsed-syn-lost",
        "nobody at 08, and the SYN in 26 is heard as quiet: nine more quiet slots, SYN in 36",
        "01 0001 10  04 0004 10 08 5002  05 0002 0019  07 0000  05 0002 000A",
        "11 10 owns / 36 10 failed 4 / 36 10 free 25 / end 36",
    ),
    entry(
        "elapsed-slave-after-owner",
        "twice NN is heard as 01, then 64 B0: 08 goes on without 10; the third time all is well",
        "01 0001 10  02 0001 08  03 0004 08 5002 64  ( 04 0004 10 08 5002 )*3
         05 0002 000E  06 0001 01  06 0001 64  06 0001 B0  05 0002 0004  06 0001 00
         05 0002 000E  06 0001 01  06 0001 64  06 0001 B0  05 0002 0004  06 0001 AA
         05 0002 000C",
        "11 10 owns / 15 10 failed 1 / 15 10 free 4 / 18 08 given 10 50 02 01 64 / 22 08 taken
         / 33 10 owns / 37 10 failed 1 / 37 10 free 4 / 40 08 given 10 50 02 01 64
         / 44 08 failed 4
         / 45 10 owns / 51 10 taken / 51 08 given 10 50 02 00
         / 55 08 taken / 55 10 answer 08 01 64 / 56 10 free 11 / end 56",
    ),
    entry(
        "elapsed-two-owners",
        "10 waits for an answer until the SYN in 27; 30 has 28 to 35, and 16 data bytes from 36 on",
        "01 0001 10  01 0001 30  02 0001 08  04 0004 10 52 5002  04 0004 30 31 5002
         04 0014 30 08 5002 000102030405060708090A0B0C0D0E0F
         05 0002 0010  06 0001 00  05 0002 0010  06 0001 00  05 0002 0018",
        "11 10 owns / 17 10 taken / 27 10 failed 4 / 27 10 free 16
         / 28 30 owns / 34 30 taken / 35 30 free 7 / 36 30 owns / 58 30 taken
         / 58 08 given 30 50 02 10 00 01 02 03 04 05 06 07 08 09 0A 0B 0C 0D 0E 0F / end 58",
    ),
];
