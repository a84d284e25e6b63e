//! The long texts of the stored counts: tables filled with 64 records.

/// 52, all 25 masters, and four telegrams of each of the sixteen first in rank,
/// from the last to the first: to all, to 52, to FF, to 60, where nobody is.
pub const SIXTY_FOUR: &str = "02 0001 52
    01 0001 FF  01 0001 F7  01 0001 F3  01 0001 F1  01 0001 F0
    01 0001 7F  01 0001 77  01 0001 73  01 0001 71  01 0001 70
    01 0001 3F  01 0001 37  01 0001 33  01 0001 31  01 0001 30
    01 0001 1F  01 0001 17  01 0001 13  01 0001 11  01 0001 10
    01 0001 0F  01 0001 07  01 0001 03  01 0001 01  01 0001 00
    04 0004 07 FE 5002  04 0004 07 52 5002  04 0004 07 FF 5002  04 0004 07 60 5002
    04 0004 F3 FE 5002  04 0004 F3 52 5002  04 0004 F3 FF 5002  04 0004 F3 60 5002
    04 0004 73 FE 5002  04 0004 73 52 5002  04 0004 73 FF 5002  04 0004 73 60 5002
    04 0004 33 FE 5002  04 0004 33 52 5002  04 0004 33 FF 5002  04 0004 33 60 5002
    04 0004 13 FE 5002  04 0004 13 52 5002  04 0004 13 FF 5002  04 0004 13 60 5002
    04 0004 03 FE 5002  04 0004 03 52 5002  04 0004 03 FF 5002  04 0004 03 60 5002
    04 0004 F1 FE 5002  04 0004 F1 52 5002  04 0004 F1 FF 5002  04 0004 F1 60 5002
    04 0004 71 FE 5002  04 0004 71 52 5002  04 0004 71 FF 5002  04 0004 71 60 5002
    04 0004 31 FE 5002  04 0004 31 52 5002  04 0004 31 FF 5002  04 0004 31 60 5002
    04 0004 11 FE 5002  04 0004 11 52 5002  04 0004 11 FF 5002  04 0004 11 60 5002
    04 0004 01 FE 5002  04 0004 01 52 5002  04 0004 01 FF 5002  04 0004 01 60 5002
    04 0004 F0 FE 5002  04 0004 F0 52 5002  04 0004 F0 FF 5002  04 0004 F0 60 5002
    04 0004 70 FE 5002  04 0004 70 52 5002  04 0004 70 FF 5002  04 0004 70 60 5002
    04 0004 30 FE 5002  04 0004 30 52 5002  04 0004 30 FF 5002  04 0004 30 60 5002
    04 0004 10 FE 5002  04 0004 10 52 5002  04 0004 10 FF 5002  04 0004 10 60 5002
    04 0004 00 FE 5002  04 0004 00 52 5002  04 0004 00 FF 5002  04 0004 00 60 5002
    05 0002 07D0";

/// The lines of 00, where nothing of it was sent again.
pub const FIRST_FOUR: &str = "00 FE taken 1 failed 0 / 00 52 taken 1 failed 0
    / 00 FF taken 1 failed 0 / 00 60 taken 0 failed 1";

/// The same of 07.
pub const LAST_FOUR: &str = "07 FE taken 1 failed 0 / 07 52 taken 1 failed 0
    / 07 FF taken 1 failed 0 / 07 60 taken 0 failed 1";

/// The lines between them.
pub const BETWEEN: &str = "10 FE taken 1 failed 0 / 10 52 taken 1 failed 0
    / 10 FF taken 1 failed 0 / 10 60 taken 0 failed 1
    / 30 FE taken 1 failed 0 / 30 52 taken 1 failed 0
    / 30 FF taken 1 failed 0 / 30 60 taken 0 failed 1
    / 70 FE taken 1 failed 0 / 70 52 taken 1 failed 0
    / 70 FF taken 1 failed 0 / 70 60 taken 0 failed 1
    / F0 FE taken 1 failed 0 / F0 52 taken 1 failed 0
    / F0 FF taken 1 failed 0 / F0 60 taken 0 failed 1
    / 01 FE taken 1 failed 0 / 01 52 taken 1 failed 0
    / 01 FF taken 1 failed 0 / 01 60 taken 0 failed 1
    / 11 FE taken 1 failed 0 / 11 52 taken 1 failed 0
    / 11 FF taken 1 failed 0 / 11 60 taken 0 failed 1
    / 31 FE taken 1 failed 0 / 31 52 taken 1 failed 0
    / 31 FF taken 1 failed 0 / 31 60 taken 0 failed 1
    / 71 FE taken 1 failed 0 / 71 52 taken 1 failed 0
    / 71 FF taken 1 failed 0 / 71 60 taken 0 failed 1
    / F1 FE taken 1 failed 0 / F1 52 taken 1 failed 0
    / F1 FF taken 1 failed 0 / F1 60 taken 0 failed 1
    / 03 FE taken 1 failed 0 / 03 52 taken 1 failed 0
    / 03 FF taken 1 failed 0 / 03 60 taken 0 failed 1
    / 13 FE taken 1 failed 0 / 13 52 taken 1 failed 0
    / 13 FF taken 1 failed 0 / 13 60 taken 0 failed 1
    / 33 FE taken 1 failed 0 / 33 52 taken 1 failed 0
    / 33 FF taken 1 failed 0 / 33 60 taken 0 failed 1
    / 73 FE taken 1 failed 0 / 73 52 taken 1 failed 0
    / 73 FF taken 1 failed 0 / 73 60 taken 0 failed 1
    / F3 FE taken 1 failed 0 / F3 52 taken 1 failed 0
    / F3 FF taken 1 failed 0 / F3 60 taken 0 failed 1";

/// Four telegrams of each of the nine other masters; FF has 00 in place of FF.
pub const THIRTY_SIX: &str =
    "04 0004 17 FE 5002  04 0004 17 52 5002  04 0004 17 FF 5002  04 0004 17 60 5002
    04 0004 37 FE 5002  04 0004 37 52 5002  04 0004 37 FF 5002  04 0004 37 60 5002
    04 0004 77 FE 5002  04 0004 77 52 5002  04 0004 77 FF 5002  04 0004 77 60 5002
    04 0004 F7 FE 5002  04 0004 F7 52 5002  04 0004 F7 FF 5002  04 0004 F7 60 5002
    04 0004 0F FE 5002  04 0004 0F 52 5002  04 0004 0F FF 5002  04 0004 0F 60 5002
    04 0004 1F FE 5002  04 0004 1F 52 5002  04 0004 1F FF 5002  04 0004 1F 60 5002
    04 0004 3F FE 5002  04 0004 3F 52 5002  04 0004 3F FF 5002  04 0004 3F 60 5002
    04 0004 7F FE 5002  04 0004 7F 52 5002  04 0004 7F FF 5002  04 0004 7F 60 5002
    04 0004 FF FE 5002  04 0004 FF 52 5002  04 0004 FF 00 5002  04 0004 FF 60 5002
    05 0002 0FA0";

/// 10 to the first 64 addresses that are not refused, each with 00 and no answer.
pub const FIRST_ADDRESSES: &str = "10 00 taken 1 failed 0
    / 10 01 taken 1 failed 0 / 10 02 taken 0 failed 1
    / 10 03 taken 1 failed 0 / 10 04 taken 0 failed 1 / 10 05 taken 0 failed 1
    / 10 06 taken 0 failed 1 / 10 07 taken 1 failed 0 / 10 08 taken 0 failed 1
    / 10 09 taken 0 failed 1 / 10 0A taken 0 failed 1 / 10 0B taken 0 failed 1
    / 10 0C taken 0 failed 1 / 10 0D taken 0 failed 1 / 10 0E taken 0 failed 1
    / 10 0F taken 1 failed 0 / 10 11 taken 1 failed 0 / 10 12 taken 0 failed 1
    / 10 13 taken 1 failed 0 / 10 14 taken 0 failed 1 / 10 16 taken 0 failed 1
    / 10 17 taken 1 failed 0 / 10 18 taken 0 failed 1 / 10 19 taken 0 failed 1
    / 10 1A taken 0 failed 1 / 10 1B taken 0 failed 1 / 10 1C taken 0 failed 1
    / 10 1D taken 0 failed 1 / 10 1E taken 0 failed 1 / 10 1F taken 1 failed 0
    / 10 20 taken 0 failed 1 / 10 21 taken 0 failed 1 / 10 22 taken 0 failed 1
    / 10 23 taken 0 failed 1 / 10 24 taken 0 failed 1 / 10 25 taken 0 failed 1
    / 10 26 taken 0 failed 1 / 10 27 taken 0 failed 1 / 10 28 taken 0 failed 1
    / 10 29 taken 0 failed 1 / 10 2A taken 0 failed 1 / 10 2B taken 0 failed 1
    / 10 2C taken 0 failed 1 / 10 2D taken 0 failed 1 / 10 2E taken 0 failed 1
    / 10 2F taken 0 failed 1 / 10 30 taken 1 failed 0 / 10 31 taken 1 failed 0
    / 10 32 taken 0 failed 1 / 10 33 taken 1 failed 0 / 10 34 taken 0 failed 1
    / 10 35 taken 0 failed 1 / 10 36 taken 0 failed 1 / 10 37 taken 1 failed 0
    / 10 38 taken 0 failed 1 / 10 39 taken 0 failed 1 / 10 3A taken 0 failed 1
    / 10 3B taken 0 failed 1 / 10 3C taken 0 failed 1 / 10 3D taken 0 failed 1
    / 10 3E taken 0 failed 1 / 10 3F taken 1 failed 0 / 10 40 taken 0 failed 1
    / 10 41 taken 0 failed 1";
