/* What a foreign HDLC stack does, in one form for each. A line is whole octets in the stack's own order of
 * bits; a frame is without its check, which the stack works out over all octets and puts behind them. */
#ifndef FOREIGN_H
#define FOREIGN_H

#include <stddef.h>
#include <stdint.h>

/* Is handed a frame whose check is right. */
typedef void foreign_hand(void *whose, const uint8_t *frame, size_t length);

/* Reads a line from a fresh start and gives how often the stack complained. */
typedef size_t foreign_read(const uint8_t *line, size_t length, foreign_hand *hand, void *whose);

/* Writes frames, which stand one behind the other, with so many flags between two, and flags behind the
 * last up to the end of the line. Gives how many frames it took. */
typedef size_t foreign_write(const uint8_t *frames, const size_t *lengths, size_t count, size_t flags,
    uint8_t *line, size_t room);

foreign_read isdnhdlc_read, spandsp_read;
foreign_write isdnhdlc_write, spandsp_write;

#endif
