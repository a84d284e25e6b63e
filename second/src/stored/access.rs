//! The generator, admission and the contest. The telegrams are broadcasts of
//! six symbols, such as 10 FE 50 02 00 FD, so that an owner needs seven slots.

use super::{entry, Entry};

pub const ENTRIES: &[Entry] = &[
    entry(
        "limit-quiet-slots",
        "eight quiet slots, a symbol, eight again, a symbol, then nine: SYN in 28",
        "01 0001 10  04 0004 10 FE 5002  05 0002 0008  06 0001 05  05 0002 0008  06 0001 05
         05 0002 000B",
        "29 10 owns / end 29",
    ),
    entry(
        "syn-lost",
        "the generator's SYN in 10 is heard as quiet: nine more, SYN in 20",
        "01 0001 10  04 0004 10 FE 5002  05 0002 0009  07 0000  05 0002 000B",
        "21 10 owns / end 21",
    ),
    entry(
        "access-first-syn",
        "a symbol before the first SYN (in 11): it admits all the same",
        "01 0001 10  04 0004 10 FE 5002  06 0001 10  05 0002 000B",
        "12 10 owns / end 12",
    ),
    entry(
        "access-p8",
        "00 and 01: 00 at once",
        "01 0001 00  01 0001 01  04 0004 00 FE 5002  04 0004 01 FE 5002  05 0002 0018",
        "11 00 owns / 16 00 taken / 16 01 given 00 50 02 00 / 17 00 free 6
         / 18 01 owns / 23 01 taken / 23 00 given 01 50 02 00 / 24 01 free 6 / end 24",
    ),
    entry(
        "access-p9",
        "10 and 01: word 00, then 10",
        "01 0001 10  01 0001 01  04 0004 10 FE 5002  04 0004 01 FE 5002  05 0002 0023",
        "22 10 owns / 27 10 taken / 27 01 given 10 50 02 00 / 28 10 free 6
         / 29 01 owns / 34 01 taken / 34 10 given 01 50 02 00 / 35 01 free 6 / end 35",
    ),
    entry(
        "access-p10",
        "F0, 30 and 1F: word 10, then 30; word 10 once more, then F0; then 1F",
        "01 0001 F0  01 0001 30  01 0001 1F
         04 0004 F0 FE 5002  04 0004 30 FE 5002  04 0004 1F FE 5002  05 0002 0035",
        "22 30 owns / 27 30 taken / 27 F0 given 30 50 02 00 / 27 1F given 30 50 02 00
         / 28 30 free 6
         / 40 F0 owns / 45 F0 taken / 45 30 given F0 50 02 00 / 45 1F given F0 50 02 00
         / 46 F0 free 6
         / 47 1F owns / 52 1F taken / 52 F0 given 1F 50 02 00 / 52 30 given 1F 50 02 00
         / 53 1F free 6 / end 53",
    ),
    entry(
        "access-p11",
        "31 and 13: word 11, then 31",
        "01 0001 31  01 0001 13  04 0004 31 FE 5002  04 0004 13 FE 5002  05 0002 0023",
        "22 31 owns / 27 31 taken / 27 13 given 31 50 02 00 / 28 31 free 6
         / 29 13 owns / 34 13 taken / 34 31 given 13 50 02 00 / 35 13 free 6 / end 35",
    ),
    entry(
        "access-p12",
        "FF and 7F, of one class: 7F at once",
        "01 0001 FF  01 0001 7F  04 0004 FF FE 5002  04 0004 7F FE 5002  05 0002 0018",
        "11 7F owns / 16 7F taken / 16 FF given 7F 50 02 00 / 17 7F free 6
         / 18 FF owns / 23 FF taken / 23 7F given FF 50 02 00 / 24 FF free 6 / end 24",
    ),
    entry(
        "access-newcomer",
        "00 queues after the collision of 10 and 01: it waits until 10 is through",
        "01 0001 00  01 0001 10  01 0001 01  04 0004 10 FE 5002  04 0004 01 FE 5002
         05 0002 000C  04 0004 00 FE 5002  05 0002 001E",
        "22 10 owns / 27 10 taken / 27 00 given 10 50 02 00 / 27 01 given 10 50 02 00
         / 28 10 free 6
         / 29 00 owns / 34 00 taken / 34 10 given 00 50 02 00 / 34 01 given 00 50 02 00
         / 35 00 free 6
         / 36 01 owns / 41 01 taken / 41 00 given 01 50 02 00 / 41 10 given 01 50 02 00
         / 42 01 free 6 / end 42",
    ),
    entry(
        "access-nobody-marked",
        "one foreign symbol after SYN and no marks: the SYN in 12 admits nobody",
        "01 0001 30  06 0001 AA  06 0001 10  04 0004 30 FE 5002  05 0002 0015",
        "23 30 owns / end 23",
    ),
    entry(
        "access-mark-of-a-loser",
        "30 owns though 10 should have; it fails at once, and the SYN admits 10 but not 00",
        "01 0001 00  01 0001 30  01 0001 10  04 0004 30 FE 5002  04 0004 10 FE 5002
         05 0002 000A  06 0001 30  07 0000  04 0004 00 FE 5002  05 0002 000A",
        "11 30 owns / 12 30 failed 1 / 12 30 free 1 / 22 10 owns / end 22",
    ),
    entry(
        "access-marks-go-out",
        "30 is marked in 11 and admitted in 12; 05 in 13 marks nobody, SYN in 23 admits nobody",
        "01 0001 30  01 0001 10  04 0004 30 FE 5002  04 0004 10 FE 5002
         05 0002 000B  06 0001 AA  06 0001 05  05 0002 0015",
        "11 10 owns / 12 10 failed 1 / 12 10 free 1 / 34 30 owns / end 34",
    ),
    entry(
        "access-mark-by-any-symbol",
        "11 is heard as 40, no master address: 10 marks itself, 01 does not",
        "01 0001 01  01 0001 10  04 0004 01 FE 5002  04 0004 10 FE 5002
         05 0002 000A  06 0001 40  05 0002 000B",
        "22 10 owns / end 22",
    ),
    entry(
        "access-heard-quiet",
        "11 is heard as quiet: 10 and 01 withdraw unmarked, SYN in 20 admits both: word 00 in 21",
        "01 0001 01  01 0001 10  04 0004 01 FE 5002  04 0004 10 FE 5002
         05 0002 000A  07 0000  05 0002 0015",
        "32 10 owns / end 32",
    ),
    entry(
        "access-late-queue",
        "queued after slot 11: the admission is over, the next SYN is in 20",
        "01 0001 10  05 0002 000B  04 0004 10 FE 5002  05 0002 000A",
        "21 10 owns / end 21",
    ),
    entry(
        "access-foreign-winner",
        "30 sends its QQ but 10 is heard: it withdraws, reads 10 35 50 02 00 8D and answers",
        "01 0001 30  04 0004 30 FE 5002  05 0002 000A
         06 0001 10  06 0001 35  06 0001 50  06 0001 02  06 0001 00  06 0001 8D
         05 0002 0003  06 0001 00  06 0001 AA  05 0002 0001",
        "17 30 given 10 50 02 00 / 20 30 taken / 22 30 owns / end 22",
    ),
];
