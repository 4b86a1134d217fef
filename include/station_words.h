/* station_words.h: the words of each number that an entry returns or a message carries, for a log or a screen. It needs no archive.
 * tools/numbers writes the rows from numbers.txt, which the crate for Rust, the package for Python and the library for JavaScript take too. */
#ifndef STATION_WORDS_H
#define STATION_WORDS_H

#ifdef __cplusplus
extern "C" {
#endif

/* What a number says, as `out of turn` for 31. Of an answer: station_words(STATION_NUMBER(answer)). */
static inline const char *station_words(unsigned number) {
    switch (number) {
    case 0: return "taken";
    case 1: return "fewer bytes than it says";
    case 2: return "a length that its kind doesn't have";
    case 3: return "unknown kind";
    case 4: return "a field out of range";
    case 5: return "more than eight instructions";
    case 6: return "a set is outstanding";
    case 7: return "empty set";
    case 8: return "overlap";
    case 10: return "event impossible";
    case 11: return "no set is outstanding";
    case 12: return "not in the set";
    case 13: return "already answered";
    case 15: return "image not sound";
    case 16: return "station unfit";
    case 17: return "room too small";
    case 20: return "nothing named";
    case 21: return "a gap between those named";
    case 22: return "not available";
    case 23: return "no free place to move to";
    case 24: return "odd count: a car would be torn";
    case 25: return "half move in row 2 or 3";
    case 26: return "already at that height";
    case 27: return "not at rotation height";
    case 28: return "cells not free for the tilt or the rotation";
    case 29: return "late: of a set before the present one";
    case 30: return "of a set that was not issued";
    case 31: return "out of turn";
    case 32: return "a part is set apart";
    case 33: return "places are kept open";
    case 35: return "more than 64 sets";
    case 36: return "wish not met";
    case 37: return "number zero";
    case 38: return "number already in the garage, or given twice";
    case 39: return "not that many numbers";
    case 40: return "a total is full";
    case 41: return "not a drawing";
    default: return "not a number of the table";
    }
}

#ifdef __cplusplus
}
#endif

#endif
