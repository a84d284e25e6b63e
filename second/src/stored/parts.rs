//! Master parts: sent, read, acknowledged, repeated, broadcast.

use super::{entry, Entry};

pub const ENTRIES: &[Entry] = &[
    entry(
        "owner-failed-1-symbol",
        "PB, sent in 13, is heard as 51",
        "01 0001 10  02 0001 08  03 0004 08 5002 64  04 0004 10 08 5002
         05 0002 000C  06 0001 51  05 0002 000A",
        "11 10 owns / 13 10 failed 1 / 13 10 free 2 / end 23",
    ),
    entry(
        "owner-failed-1-quiet",
        "SB, sent in 14, is heard as quiet",
        "01 0001 10  02 0001 08  03 0004 08 5002 64  04 0004 10 08 5002
         05 0002 000D  07 0000  05 0002 0009",
        "11 10 owns / 14 10 failed 1 / 14 10 free 3 / end 23",
    ),
    entry(
        "owner-failed-1-syn",
        "SB, sent in 14, is heard as AA: it admits at once, and the next telegram goes",
        "01 0001 10  02 0001 08  03 0004 08 5002 64  04 0004 10 08 5002  04 0004 10 08 5003
         05 0002 000D  06 0001 AA  05 0002 000B",
        "11 10 owns / 14 10 failed 1 / 14 10 free 3 / 15 10 owns / 21 10 taken
         / 21 08 given 10 50 03 00 / 24 08 taken / 24 10 answer 08 00 / 25 10 free 10 / end 25",
    ),
    entry(
        "owner-failed-2",
        "the acknowledgement in 17 is heard as FE",
        "01 0001 10  02 0001 08  03 0004 08 5002 64  04 0004 10 08 5002
         05 0002 0010  06 0001 FE  05 0002 0001",
        "11 10 owns / 17 10 failed 2 / 18 10 free 7 / end 18",
    ),
    entry(
        "owner-failed-3",
        "FF in 17 and, after the repetition, in 24",
        "01 0001 10  02 0001 08  03 0004 08 5002 64  04 0004 10 08 5002
         05 0002 0010  06 0001 FF  05 0002 0006  06 0001 FF  05 0002 0001",
        "11 10 owns / 24 10 failed 3 / 25 10 free 14 / end 25",
    ),
    entry(
        "owner-failed-4",
        "the acknowledgement in 17 is heard as AA",
        "01 0001 10  02 0001 08  03 0004 08 5002 64  04 0004 10 08 5002
         05 0002 0010  06 0001 AA",
        "11 10 owns / 17 10 failed 4 / 17 10 free 6 / end 17",
    ),
    entry(
        "owner-failed-4-nobody",
        "nobody at 08: nine quiet slots, the generator's SYN in 26",
        "01 0001 10  04 0004 10 08 5002  05 0002 001A",
        "11 10 owns / 26 10 failed 4 / 26 10 free 15 / end 26",
    ),
    entry(
        "ack-late",
        "17 and 18 are heard as quiet, 00 only in 19: both ends judge by that",
        "01 0001 10  02 0001 08  03 0004 08 5002 64  04 0004 10 08 5002
         05 0002 0010  07 0000  07 0000  06 0001 00  05 0002 0005",
        "11 10 owns / 19 10 taken / 19 08 given 10 50 02 00
         / 23 08 taken / 23 10 answer 08 01 64 / 24 10 free 13 / end 24",
    ),
    entry(
        "ack-lost",
        "17 is heard as quiet: 08 does not send its 00 again, SYN in 26",
        "01 0001 10  02 0001 08  03 0004 08 5002 64  04 0004 10 08 5002
         05 0002 0010  07 0000  05 0002 0009",
        "11 10 owns / 26 10 failed 4 / 26 10 free 15 / end 26",
    ),
    entry(
        "release-disturbed",
        "the owner's AA is heard as 55 in 22 and, the second time, as quiet in 43",
        "01 0001 10  02 0001 08  03 0004 08 5002 64  04 0004 10 08 5002  04 0004 10 08 5003
         05 0002 0015  06 0001 55  05 0002 0014  07 0000",
        "11 10 owns / 17 10 taken / 17 08 given 10 50 02 00
         / 21 08 taken / 21 10 answer 08 01 64 / 22 10 free 11
         / 33 10 owns / 39 10 taken / 39 08 given 10 50 03 00
         / 42 08 taken / 42 10 answer 08 00 / 43 10 free 10 / end 43",
    ),
    entry(
        "part-repeated",
        "FF in 17, the part again in 18 to 23, 00 in 24",
        "01 0001 10  02 0001 08  03 0004 08 5002 64  04 0004 10 08 5002
         05 0002 0010  06 0001 FF  05 0002 000C",
        "11 10 owns / 24 10 taken / 24 08 given 10 50 02 00
         / 28 08 taken / 28 10 answer 08 01 64 / 29 10 free 18 / end 29",
    ),
    entry(
        "part-repeated-second-good",
        "a foreign part with CRC 39 gets FF in 8, its repetition with 38 gets 00 in 15",
        "02 0001 08  03 0004 08 5002 64  06 0001 AA
         06 0001 10  06 0001 08  06 0001 50  06 0001 02  06 0001 00  06 0001 39  05 0002 0001
         06 0001 10  06 0001 08  06 0001 50  06 0001 02  06 0001 00  06 0001 38  05 0002 0001",
        "15 08 given 10 50 02 00 / end 15",
    ),
    entry(
        "part-repeated-both-damaged",
        "CRC 39 twice: FF in 8 and 15; a sound part after that is not read",
        "02 0001 08  03 0004 08 5002 64  06 0001 AA
         06 0001 10  06 0001 08  06 0001 50  06 0001 02  06 0001 00  06 0001 39  05 0002 0001
         06 0001 10  06 0001 08  06 0001 50  06 0001 02  06 0001 00  06 0001 39  05 0002 0001
         06 0001 10  06 0001 08  06 0001 50  06 0001 02  06 0001 00  06 0001 38  05 0002 0001",
        "end 22",
    ),
    entry(
        "part-repeated-second-damaged",
        "sound the first time but FF heard in 8, damaged the second time and 00 heard in 15",
        "02 0001 08  03 0004 08 5002 64  06 0001 AA
         06 0001 10  06 0001 08  06 0001 50  06 0001 02  06 0001 00  06 0001 38  06 0001 FF
         06 0001 10  06 0001 08  06 0001 50  06 0001 02  06 0001 00  06 0001 39  06 0001 00
         06 0001 55  05 0002 0002",
        "end 18",
    ),
    entry(
        "part-repeated-another",
        "repetitions with another target (36) and, after SYN, with another source (30)",
        "02 0001 08  03 0004 08 5002 64
         06 0001 AA  06 0001 10  06 0001 08  06 0001 50  06 0001 02  06 0001 00  06 0001 39  05 0002 0001
         06 0001 10  06 0001 36  06 0001 50  06 0001 02  06 0001 00  06 0001 6F  05 0002 0001
         06 0001 00
         06 0001 AA  06 0001 10  06 0001 08  06 0001 50  06 0001 02  06 0001 00  06 0001 39  05 0002 0001
         06 0001 30  06 0001 08  06 0001 50  06 0001 02  06 0001 00  06 0001 71  05 0002 0001",
        "31 08 given 30 50 02 00 / end 31",
    ),
    entry(
        "part-repeated-as-broadcast",
        "damaged to 08, then the repetition to FE: 30 fell silent at the first ZZ",
        "01 0001 30  02 0001 08  06 0001 AA
         06 0001 10  06 0001 08  06 0001 50  06 0001 02  06 0001 00  06 0001 39  05 0002 0001
         06 0001 10  06 0001 FE  06 0001 50  06 0001 02  06 0001 00  06 0001 FD",
        "14 08 given 10 50 02 00 / end 14",
    ),
    entry(
        "broadcast-owned",
        "10 to FE with data 64: all but 10 hand it out with the CRC",
        "01 0001 10  01 0001 30  02 0001 08  04 0005 10 FE 5002 64  05 0002 0012",
        "11 10 owns / 17 10 taken / 17 30 given 10 50 02 01 64 / 17 08 given 10 50 02 01 64
         / 18 10 free 7 / end 18",
    ),
    entry(
        "broadcast-not-owned",
        "10 FE 50 02 00 FD is heard and 10 does not own: it hands it out too",
        "01 0001 10  02 0001 08  06 0001 AA
         06 0001 10  06 0001 FE  06 0001 50  06 0001 02  06 0001 00  06 0001 FD",
        "7 10 given 10 50 02 00 / 7 08 given 10 50 02 00 / end 7",
    ),
    entry(
        "broadcast-wrong-crc",
        "FC for FD: silence, no FF, and a sound one without a SYN before it is not read",
        "01 0001 10  02 0001 08  06 0001 AA
         06 0001 10  06 0001 FE  06 0001 50  06 0001 02  06 0001 00  06 0001 FC  05 0002 0001
         06 0001 10  06 0001 FE  06 0001 50  06 0001 02  06 0001 00  06 0001 FD",
        "end 14",
    ),
    entry(
        "broadcast-nn-17",
        "NN 17 in a broadcast: silence, no FF, and a sound one without a SYN is not read",
        "01 0001 10  02 0001 08  06 0001 AA
         06 0001 10  06 0001 FE  06 0001 50  06 0001 02  06 0001 11  05 0002 0001
         06 0001 10  06 0001 FE  06 0001 50  06 0001 02  06 0001 00  06 0001 FD",
        "end 13",
    ),
    entry(
        "broadcast-crc-aa",
        "data E7 has the CRC AA: as AA it is a SYN, as A9 01 it is the CRC",
        "02 0001 08  06 0001 AA
         06 0001 10  06 0001 FE  06 0001 50  06 0001 02  06 0001 01  06 0001 E7  06 0001 AA
         06 0001 10  06 0001 FE  06 0001 50  06 0001 02  06 0001 01  06 0001 E7
         06 0001 A9  06 0001 01",
        "16 08 given 10 50 02 01 E7 / end 16",
    ),
    entry(
        "broadcast-after-failed-owner",
        "SB is heard as 03, then 00 66: 08 reads 10 FE 50 03 00 66, 10 is silent",
        "01 0001 10  02 0001 08  04 0004 10 FE 5002  05 0002 000D
         06 0001 03  06 0001 00  06 0001 66",
        "11 10 owns / 14 10 failed 1 / 14 10 free 3 / 16 08 given 10 50 03 00 / end 16",
    ),
    entry(
        "master-to-master",
        "10 to the master address 30: acknowledged, no answer",
        "01 0001 10  01 0001 30  03 0004 35 5002 64  04 0004 10 30 5002  05 0002 0012",
        "11 10 owns / 17 10 taken / 17 30 given 10 50 02 00 / 18 10 free 7 / end 18",
    ),
    entry(
        "master-heard-no-answer",
        "a foreign part to the master address 30: 00 in 8, and 30 does not send in 9",
        "01 0001 30  06 0001 AA
         06 0001 10  06 0001 30  06 0001 50  06 0001 02  06 0001 00  06 0001 30
         05 0002 0001  06 0001 55",
        "8 30 given 10 50 02 00 / end 9",
    ),
    entry(
        "parts-p2-to-p5",
        "data AA, A9, 7E (CRC AA), 7D (CRC A9) from an owner: eight symbols each",
        "01 0001 10  02 0001 08  04 0005 10 08 5002 AA  04 0005 10 08 5002 A9
         04 0005 10 08 5002 7E  04 0005 10 08 5002 7D  05 0002 003E",
        "11 10 owns / 19 10 taken / 19 08 given 10 50 02 01 AA
         / 22 08 taken / 22 10 answer 08 00 / 23 10 free 12
         / 24 10 owns / 32 10 taken / 32 08 given 10 50 02 01 A9
         / 35 08 taken / 35 10 answer 08 00 / 36 10 free 12
         / 37 10 owns / 45 10 taken / 45 08 given 10 50 02 01 7E
         / 48 08 taken / 48 10 answer 08 00 / 49 10 free 12
         / 50 10 owns / 58 10 taken / 58 08 given 10 50 02 01 7D
         / 61 08 taken / 61 10 answer 08 00 / 62 10 free 12 / end 62",
    ),
    entry(
        "parts-p2-to-p5-heard",
        "the same four symbol by symbol; each answer is cut off by AA",
        "02 0001 08
         06 0001 AA  06 0001 10  06 0001 08  06 0001 50  06 0001 02  06 0001 01
         06 0001 A9  06 0001 01  06 0001 DC  05 0002 0001
         06 0001 AA  06 0001 10  06 0001 08  06 0001 50  06 0001 02  06 0001 01
         06 0001 A9  06 0001 00  06 0001 DD  05 0002 0001
         06 0001 AA  06 0001 10  06 0001 08  06 0001 50  06 0001 02  06 0001 01
         06 0001 7E  06 0001 A9  06 0001 01  05 0002 0001
         06 0001 AA  06 0001 10  06 0001 08  06 0001 50  06 0001 02  06 0001 01
         06 0001 7D  06 0001 A9  06 0001 00  05 0002 0001",
        "10 08 given 10 50 02 01 AA / 11 08 failed 1 / 20 08 given 10 50 02 01 A9
         / 21 08 failed 1 / 30 08 given 10 50 02 01 7E / 31 08 failed 1
         / 40 08 given 10 50 02 01 7D / end 40",
    ),
    entry(
        "part-crc-unexpanded",
        "P2 with 7E, the CRC over the data before expansion: FF in 10, P1 as repetition goes",
        "02 0001 08  06 0001 AA  06 0001 10  06 0001 08  06 0001 50  06 0001 02  06 0001 01
         06 0001 A9  06 0001 01  06 0001 7E  05 0002 0001
         06 0001 10  06 0001 08  06 0001 50  06 0001 02  06 0001 00  06 0001 38  05 0002 0001",
        "17 08 given 10 50 02 00 / end 17",
    ),
    entry(
        "part-longest",
        "16 data bytes AA and CRC AA (PB SB 50 C4): 39 symbols",
        "01 0001 10  02 0001 08  04 0014 10 08 50C4 ( AA )*16  05 0002 0036",
        "11 10 owns / 50 10 taken
         / 50 08 given 10 50 C4 10 AA AA AA AA AA AA AA AA AA AA AA AA AA AA AA AA
         / 53 08 taken / 53 10 answer 08 00 / 54 10 free 43 / end 54",
    ),
    entry(
        "part-long-after-short",
        "three to 30, where nobody is (FE in 17, 00 in 25 and 33), then 16 data bytes to 08",
        "01 0001 10  02 0001 08  ( 04 0004 10 30 5002 )*3
         04 0014 10 08 5002 000102030405060708090A0B0C0D0E0F
         05 0002 0010  06 0001 FE  05 0002 0007  06 0001 00  05 0002 0007  06 0001 00
         05 0002 0018",
        "11 10 owns / 17 10 failed 2 / 18 10 free 7 / 19 10 owns / 25 10 taken / 26 10 free 7
         / 27 10 owns / 33 10 taken / 34 10 free 7 / 35 10 owns / 57 10 taken
         / 57 08 given 10 50 02 10 00 01 02 03 04 05 06 07 08 09 0A 0B 0C 0D 0E 0F / end 57",
    ),
    entry(
        "limit-nn-heard",
        "after NN 17 in 6 a part with NN 16 is not read before SYN; after it, it is handed out",
        "02 0001 08  06 0001 AA
         06 0001 10  06 0001 08  06 0001 50  06 0001 02  06 0001 11  05 0002 0001
         06 0001 10  06 0001 08  06 0001 50  06 0001 02  06 0001 10
         06 0001 00  06 0001 01  06 0001 02  06 0001 03  06 0001 04  06 0001 05
         06 0001 06  06 0001 07  06 0001 08  06 0001 09  06 0001 0A  06 0001 0B
         06 0001 0C  06 0001 0D  06 0001 0E  06 0001 0F  06 0001 1E  05 0002 0001
         06 0001 AA  06 0001 10  06 0001 08  06 0001 50  06 0001 02  06 0001 10
         06 0001 00  06 0001 01  06 0001 02  06 0001 03  06 0001 04  06 0001 05
         06 0001 06  06 0001 07  06 0001 08  06 0001 09  06 0001 0A  06 0001 0B
         06 0001 0C  06 0001 0D  06 0001 0E  06 0001 0F  06 0001 1E  05 0002 0001",
        "54 08 given 10 50 02 10 00 01 02 03 04 05 06 07 08 09 0A 0B 0C 0D 0E 0F / end 54",
    ),
    entry(
        "nn-a9-heard",
        "NN A9 in 6 is a count above 16 and no half of a pair: P1 is not read before SYN",
        "02 0001 08  06 0001 AA
         06 0001 10  06 0001 08  06 0001 50  06 0001 02  06 0001 A9  05 0002 0001
         06 0001 10  06 0001 08  06 0001 50  06 0001 02  06 0001 00  06 0001 38  05 0002 0001
         06 0001 AA
         06 0001 10  06 0001 08  06 0001 50  06 0001 02  06 0001 00  06 0001 38  05 0002 0001",
        "22 08 given 10 50 02 00 / end 22",
    ),
    entry(
        "nn-aa-heard",
        "AA in the place of NN, in 6, is a SYN: P1 right after it is read",
        "02 0001 08  06 0001 AA
         06 0001 10  06 0001 08  06 0001 50  06 0001 02  06 0001 AA
         06 0001 10  06 0001 08  06 0001 50  06 0001 02  06 0001 00  06 0001 38  05 0002 0001",
        "13 08 given 10 50 02 00 / end 13",
    ),
    entry(
        "reading-ends-silent",
        "20, A9 and A9 put into P1, QQ 20, PB A9, SB A9, pairs A9 02 and A9 38; P1 after A9 AA",
        "02 0001 08
         06 0001 AA  06 0001 20  06 0001 10  06 0001 08  06 0001 50  06 0001 02  06 0001 00  06 0001 38
         05 0002 0001
         06 0001 AA  06 0001 10  06 0001 08  06 0001 A9  06 0001 50  06 0001 02  06 0001 00
         06 0001 38  05 0002 0001
         06 0001 AA  06 0001 10  06 0001 08  06 0001 50  06 0001 A9  06 0001 02  06 0001 00
         06 0001 38  05 0002 0001
         06 0001 AA  06 0001 20  06 0001 08  06 0001 50  06 0001 02  06 0001 00  06 0001 98
         05 0002 0001
         06 0001 AA  06 0001 10  06 0001 08  06 0001 A9  06 0001 02  06 0001 00  06 0001 FD
         05 0002 0001
         06 0001 AA  06 0001 10  06 0001 08  06 0001 50  06 0001 A9  06 0001 00  06 0001 78
         05 0002 0001
         06 0001 AA  06 0001 10  06 0001 08  06 0001 50  06 0001 02  06 0001 01  06 0001 A9
         06 0001 02  06 0001 DF  05 0002 0001
         06 0001 10  06 0001 08  06 0001 50  06 0001 02  06 0001 00  06 0001 38  05 0002 0001
         06 0001 AA  06 0001 10  06 0001 08  06 0001 50  06 0001 02  06 0001 00  06 0001 A9
         06 0001 38  05 0002 0001
         06 0001 10  06 0001 08  06 0001 50  06 0001 02  06 0001 00  06 0001 38  05 0002 0001
         06 0001 AA  06 0001 10  06 0001 08  06 0001 50  06 0001 02  06 0001 01  06 0001 A9
         06 0001 AA
         06 0001 10  06 0001 08  06 0001 50  06 0001 02  06 0001 00  06 0001 38  05 0002 0001",
        "99 08 given 10 50 02 00 / end 99",
    ),
    entry(
        "reading-qq-4x",
        "QQ 40, 41, 43, 47, 4F with right CRCs: only the low half is a master's; P1 at the end",
        "02 0001 08
         06 0001 AA  06 0001 40  06 0001 08  06 0001 50  06 0001 02  06 0001 00  06 0001 43
         05 0002 0001
         06 0001 AA  06 0001 41  06 0001 08  06 0001 50  06 0001 02  06 0001 00  06 0001 CC
         05 0002 0001
         06 0001 AA  06 0001 43  06 0001 08  06 0001 50  06 0001 02  06 0001 00  06 0001 49
         05 0002 0001
         06 0001 AA  06 0001 47  06 0001 08  06 0001 50  06 0001 02  06 0001 00  06 0001 D8
         05 0002 0001
         06 0001 AA  06 0001 4F  06 0001 08  06 0001 50  06 0001 02  06 0001 00  06 0001 61
         05 0002 0001
         06 0001 AA  06 0001 10  06 0001 08  06 0001 50  06 0001 02  06 0001 00  06 0001 38
         05 0002 0001",
        "48 08 given 10 50 02 00 / end 48",
    ),
    entry(
        "reading-skips-quiet",
        "quiet slots between the symbols of P2, also between A9 and 01",
        "02 0001 08  06 0001 AA  06 0001 10  06 0001 08  07 0000  06 0001 50  06 0001 02
         06 0001 01  06 0001 A9  07 0000  07 0000  06 0001 01  06 0001 DC  05 0002 0001",
        "13 08 given 10 50 02 01 AA / end 13",
    ),
];
