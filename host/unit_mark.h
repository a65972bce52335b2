/* The mark of a unit, for a host in C. Link with target/staticlib/libmarks.a, which `tools/staticlib` makes. */
#ifndef UNIT_MARK_H
#define UNIT_MARK_H

#include <stddef.h>
#include <stdint.h>

/* Takes a kind (1 generating unit, 2 load, 3 bidirectional unit, 4 semi-scheduled generating unit) and two successive 40-byte
   lines of a unit in no chain, and returns its mark for the second: 0 OFF, 1 BLANK, 2 CLEAR, 3 DOUBT, 4 SMALL, 5 LARGE. An
   unknown kind, or a line that is not 40 bytes, gives 6. A first line that is unreadable leaves nothing kept, and gives BLANK.

   Byte 2 of a line is the semi-dispatch cap flag of kind 4, 0 or 1, and zero for the others; any other value makes the line
   unreadable. A unit of kind 4 is OFF where the first line's flag is 0 and it is not BLANK; a unit of another kind is never OFF.

   earlier and later point to so many readable bytes, which are not written; either may be null where its length is 0. */
uint32_t unit_mark(uint32_t kind, const uint8_t *earlier, size_t earlier_length, const uint8_t *later, size_t later_length);

#endif
