//! Answers. With an owner that is attached the answer begins in slot 18; a
//! lone slave 08 hears P1 in 2 to 7 and its answer begins in 9.

use super::{entry, Entry};

pub const ENTRIES: &[Entry] = &[
    entry(
        "slave-failed-1-symbol",
        "64, sent in 19, is heard as 65; the owner waits until the SYN in 29",
        "01 0001 10  02 0001 08  03 0004 08 5002 64  04 0004 10 08 5002
         05 0002 0012  06 0001 65  05 0002 000A",
        "11 10 owns / 17 10 taken / 17 08 given 10 50 02 00 / 19 08 failed 1
         / 29 10 failed 4 / 29 10 free 18 / end 29",
    ),
    entry(
        "slave-failed-1-quiet",
        "64, sent in 19, is heard as quiet; the owner waits until the SYN in 28",
        "01 0001 10  02 0001 08  03 0004 08 5002 64  04 0004 10 08 5002
         05 0002 0012  07 0000  05 0002 0009",
        "11 10 owns / 17 10 taken / 17 08 given 10 50 02 00 / 19 08 failed 1
         / 28 10 failed 4 / 28 10 free 17 / end 28",
    ),
    entry(
        "slave-failed-1-lone",
        "a lone slave; 64, sent in 10, is heard as quiet",
        "02 0001 08  03 0004 08 5002 64  06 0001 AA
         06 0001 10  06 0001 08  06 0001 50  06 0001 02  06 0001 00  06 0001 38
         05 0002 0002  07 0000  05 0002 0003",
        "8 08 given 10 50 02 00 / 10 08 failed 1 / end 13",
    ),
    entry(
        "slave-failed-2",
        "a lone slave; after its answer 05 is heard",
        "02 0001 08  03 0004 08 5002 64  06 0001 AA
         06 0001 10  06 0001 08  06 0001 50  06 0001 02  06 0001 00  06 0001 38
         05 0002 0004  06 0001 05",
        "8 08 given 10 50 02 00 / 12 08 failed 2 / end 12",
    ),
    entry(
        "slave-failed-3",
        "a lone slave; FF in 12 and, after the repetition, in 16",
        "02 0001 08  03 0004 08 5002 64  06 0001 AA
         06 0001 10  06 0001 08  06 0001 50  06 0001 02  06 0001 00  06 0001 38
         05 0002 0004  06 0001 FF  05 0002 0003  06 0001 FF",
        "8 08 given 10 50 02 00 / 16 08 failed 3 / end 16",
    ),
    entry(
        "slave-failed-4",
        "a lone slave; after its answer nobody acknowledges: SYN in 21",
        "02 0001 08  03 0004 08 5002 64  06 0001 AA
         06 0001 10  06 0001 08  06 0001 50  06 0001 02  06 0001 00  06 0001 38
         05 0002 000E",
        "8 08 given 10 50 02 00 / 21 08 failed 4 / end 21",
    ),
    entry(
        "answer-failed-2-wrong-crc",
        "FE for FF in 20: the owner sends FF, but 00 is heard in 21",
        "01 0001 10  04 0004 10 08 5002  05 0002 0010  06 0001 00
         06 0001 01  06 0001 64  06 0001 FE  06 0001 00  05 0002 0001",
        "11 10 owns / 17 10 taken / 21 10 failed 2 / 22 10 free 11 / end 22",
    ),
    entry(
        "answer-failed-2-symbol",
        "05 in 21: owner and slave are told",
        "01 0001 10  02 0001 08  03 0004 08 5002 64  04 0004 10 08 5002
         05 0002 0014  06 0001 05  05 0002 0001",
        "11 10 owns / 17 10 taken / 17 08 given 10 50 02 00
         / 21 10 failed 2 / 21 08 failed 2 / 22 10 free 11 / end 22",
    ),
    entry(
        "answer-failed-3",
        "FF in 21 and 25: owner and slave are told",
        "01 0001 10  02 0001 08  03 0004 08 5002 64  04 0004 10 08 5002
         05 0002 0014  06 0001 FF  05 0002 0003  06 0001 FF  05 0002 0001",
        "11 10 owns / 17 10 taken / 17 08 given 10 50 02 00
         / 25 10 failed 3 / 25 08 failed 3 / 26 10 free 15 / end 26",
    ),
    entry(
        "answer-failed-4-ack",
        "AA in 21: owner and slave are told, the owner leaves",
        "01 0001 10  02 0001 08  03 0004 08 5002 64  04 0004 10 08 5002
         05 0002 0014  06 0001 AA",
        "11 10 owns / 17 10 taken / 17 08 given 10 50 02 00
         / 21 10 failed 4 / 21 10 free 10 / 21 08 failed 4 / end 21",
    ),
    entry(
        "answer-failed-4-awaited",
        "no answer comes: SYN in 27",
        "01 0001 10  04 0004 10 08 5002  05 0002 0010  06 0001 00  05 0002 000A",
        "11 10 owns / 17 10 taken / 27 10 failed 4 / 27 10 free 16 / end 27",
    ),
    entry(
        "answer-failed-4-after-a9",
        "A9 in 19, AA in 20: failed 4, not 5",
        "01 0001 10  04 0004 10 08 5002  05 0002 0010  06 0001 00
         06 0001 01  06 0001 A9  06 0001 AA",
        "11 10 owns / 17 10 taken / 20 10 failed 4 / 20 10 free 9 / end 20",
    ),
    entry(
        "answer-failed-4-crc-aa",
        "01 31 has the CRC AA; AA in 20 is a SYN all the same",
        "01 0001 10  04 0004 10 08 5002  05 0002 0010  06 0001 00
         06 0001 01  06 0001 31  06 0001 AA",
        "11 10 owns / 17 10 taken / 20 10 failed 4 / 20 10 free 9 / end 20",
    ),
    entry(
        "answer-failed-5",
        "A9 in 19, 05 in 20",
        "01 0001 10  04 0004 10 08 5002  05 0002 0010  06 0001 00
         06 0001 01  06 0001 A9  06 0001 05  05 0002 0001",
        "11 10 owns / 17 10 taken / 20 10 failed 5 / 21 10 free 10 / end 21",
    ),
    entry(
        "answer-failed-5-and-1",
        "the slave's 00 after A9 is heard as 05 in 20: owner 5, slave 1",
        "01 0001 10  02 0001 08  03 0004 08 5002 A9  04 0004 10 08 5002
         05 0002 0013  06 0001 05  05 0002 0001",
        "11 10 owns / 17 10 taken / 17 08 given 10 50 02 00
         / 20 10 failed 5 / 20 08 failed 1 / 21 10 free 10 / end 21",
    ),
    entry(
        "answer-repeated",
        "FF in 21, the same answer in 22 to 24, 00 in 25",
        "01 0001 10  02 0001 08  03 0004 08 5002 64  04 0004 10 08 5002
         05 0002 0014  06 0001 FF  05 0002 0005",
        "11 10 owns / 17 10 taken / 17 08 given 10 50 02 00
         / 25 08 taken / 25 10 answer 08 01 64 / 26 10 free 15 / end 26",
    ),
    entry(
        "answer-and-part-repeated",
        "FF in 17 for the part and in 28 for the answer: each is repeated once",
        "01 0001 10  02 0001 08  03 0004 08 5002 64  04 0004 10 08 5002
         05 0002 0010  06 0001 FF  05 0002 000A  06 0001 FF  05 0002 0005",
        "11 10 owns / 24 10 taken / 24 08 given 10 50 02 00
         / 32 08 taken / 32 10 answer 08 01 64 / 33 10 free 22 / end 33",
    ),
    entry(
        "answer-repeated-second-good",
        "FE for FF in 20, the owner's FF in 21, then 01 64 FF and its 00 in 25",
        "01 0001 10  04 0004 10 08 5002  05 0002 0010  06 0001 00
         06 0001 01  06 0001 64  06 0001 FE  05 0002 0001
         06 0001 01  06 0001 64  06 0001 FF  05 0002 0002",
        "11 10 owns / 17 10 taken / 25 10 answer 08 01 64 / 26 10 free 15 / end 26",
    ),
    entry(
        "answer-repeated-both-damaged",
        "FE for FF in 20 and 24: the owner sends FF twice",
        "01 0001 10  04 0004 10 08 5002  05 0002 0010  06 0001 00
         06 0001 01  06 0001 64  06 0001 FE  05 0002 0001
         06 0001 01  06 0001 64  06 0001 FE  05 0002 0002",
        "11 10 owns / 17 10 taken / 25 10 failed 3 / 26 10 free 15 / end 26",
    ),
    entry(
        "answer-repeated-second-damaged",
        "sound but FF heard in 21; then FE for FF in 24 and 00 heard in 25",
        "01 0001 10  04 0004 10 08 5002  05 0002 0010  06 0001 00
         06 0001 01  06 0001 64  06 0001 FF  06 0001 FF
         06 0001 01  06 0001 64  06 0001 FE  06 0001 00  05 0002 0001",
        "11 10 owns / 17 10 taken / 25 10 failed 2 / 26 10 free 15 / end 26",
    ),
    entry(
        "answer-expanded",
        "answers 02 AA A9, 01 31 (CRC AA) and 01 32 (CRC A9)",
        "01 0001 10  02 0001 08
         03 0005 08 5002 AAA9  03 0004 08 5003 31  03 0004 08 5004 32
         04 0004 10 08 5002  04 0004 10 08 5003  04 0004 10 08 5004  05 0002 0033",
        "11 10 owns / 17 10 taken / 17 08 given 10 50 02 00
         / 24 08 taken / 24 10 answer 08 02 AA A9 / 25 10 free 14
         / 26 10 owns / 32 10 taken / 32 08 given 10 50 03 00
         / 37 08 taken / 37 10 answer 08 01 31 / 38 10 free 12
         / 39 10 owns / 45 10 taken / 45 08 given 10 50 04 00
         / 50 08 taken / 50 10 answer 08 01 32 / 51 10 free 12 / end 51",
    ),
    entry(
        "answer-expanded-heard",
        "01 A9 01 FA is heard as an answer (data AA), then 01 31 A9 01 (CRC AA)",
        "01 0001 10  04 0004 10 08 5002  04 0004 10 08 5003
         05 0002 0010  06 0001 00  06 0001 01  06 0001 A9  06 0001 01  06 0001 FA
         05 0002 0008  06 0001 00  06 0001 01  06 0001 31  06 0001 A9  06 0001 01  05 0002 0002",
        "11 10 owns / 17 10 taken / 22 10 answer 08 01 AA / 23 10 free 12
         / 24 10 owns / 30 10 taken / 35 10 answer 08 01 31 / 36 10 free 12 / end 36",
    ),
    entry(
        "answer-p6",
        "01 64 FF heard: the CRC FF is no acknowledgement",
        "01 0001 10  04 0004 10 08 5002  05 0002 0010  06 0001 00
         06 0001 01  06 0001 64  06 0001 FF  05 0002 0002",
        "11 10 owns / 17 10 taken / 21 10 answer 08 01 64 / 22 10 free 11 / end 22",
    ),
    entry(
        "answer-p7",
        "no entry for 50 02: the answer 00 00, then the owner's 00",
        "01 0001 10  02 0001 08  03 0004 08 5003 64  04 0004 10 08 5002  05 0002 0015",
        "11 10 owns / 17 10 taken / 17 08 given 10 50 02 00
         / 20 08 taken / 20 10 answer 08 00 / 21 10 free 10 / end 21",
    ),
    entry(
        "answer-p7-heard",
        "00 00 heard from elsewhere and the 00 of the owner lost: only the 00 in 21 ends it",
        "01 0001 10  04 0004 10 08 5002  05 0002 0010  06 0001 00
         06 0001 00  06 0001 00  07 0000  06 0001 00  05 0002 0001",
        "11 10 owns / 17 10 taken / 21 10 answer 08 00 / 22 10 free 11 / end 22",
    ),
    entry(
        "answer-nn-heard",
        "NN 17 in 18 is failed 5; NN 16, in 27 to the next telegram, is the answer",
        "01 0001 10  ( 04 0004 10 08 5002 )*2  05 0002 0010  06 0001 00  06 0001 11
         05 0002 0007  06 0001 00  06 0001 10
         06 0001 00  06 0001 01  06 0001 02  06 0001 03  06 0001 04  06 0001 05
         06 0001 06  06 0001 07  06 0001 08  06 0001 09  06 0001 0A  06 0001 0B
         06 0001 0C  06 0001 0D  06 0001 0E  06 0001 0F  06 0001 6E  05 0002 0002",
        "11 10 owns / 17 10 taken / 18 10 failed 5 / 19 10 free 8 / 20 10 owns / 26 10 taken
         / 45 10 answer 08 10 00 01 02 03 04 05 06 07 08 09 0A 0B 0C 0D 0E 0F
         / 46 10 free 26 / end 46",
    ),
    entry(
        "answer-of-a-master",
        "36 is the slave address of 31: 31 answers, named 36 in the answer line",
        "01 0001 31  01 0001 10  03 0004 36 5002 64  04 0004 10 36 5002  05 0002 0016",
        "11 10 owns / 17 10 taken / 17 31 given 10 50 02 00
         / 21 31 taken / 21 10 answer 36 01 64 / 22 10 free 11 / end 22",
    ),
    entry(
        "reply-changed-in-time",
        "the entry is replaced between 00 in 17 and the answer: the new one goes",
        "01 0001 10  02 0001 08  03 0004 08 5002 64  04 0004 10 08 5002
         05 0002 0011  03 0004 08 5002 65  05 0002 0005",
        "11 10 owns / 17 10 taken / 17 08 given 10 50 02 00
         / 21 08 taken / 21 10 answer 08 01 65 / 22 10 free 11 / end 22",
    ),
    entry(
        "reply-changed-too-late",
        "the entry is replaced after the first slot (a 06) and before the repetition",
        "01 0001 10  02 0001 08  03 0004 08 5002 64  04 0004 10 08 5002
         05 0002 0011  06 0001 01  03 0004 08 5002 65  05 0002 0002  06 0001 FF  03 0004 08 5002 66
         05 0002 0005",
        "11 10 owns / 17 10 taken / 17 08 given 10 50 02 00
         / 25 08 taken / 25 10 answer 08 01 64 / 26 10 free 15 / end 26",
    ),
];
