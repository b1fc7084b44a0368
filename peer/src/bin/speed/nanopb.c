/* What the bench measures of nanopb: its guide decoded and encoded as a receiver without an allocator does it, into and from one Guide that is there all
 * the time. nanopb.rs has the calls; the Makefile compiles this as it would a receiver. */
#include "../../../../examples/nanopb/guide.h"
#include <pb_decode.h>
#include <pb_encode.h>

static Guide guide;

/* Fills the guide with what bim_read gave; 1, or 0 where it has no room. */
int nanopb_fill(const uint8_t *table, const uint8_t *events, const uint8_t *texts, const uint8_t *area);
/* Encodes the guide; how many bytes, or 0. */
size_t nanopb_encode(uint8_t *bytes, size_t room);
/* Decodes into the guide; 1 or 0. */
int nanopb_decode(const uint8_t *bytes, size_t count);

int nanopb_fill(const uint8_t *table, const uint8_t *events, const uint8_t *texts, const uint8_t *area)
{
    return guide_fill(&guide, table, events, texts, area);
}

size_t nanopb_encode(uint8_t *bytes, size_t room)
{
    pb_ostream_t stream = pb_ostream_from_buffer(bytes, room);
    return pb_encode(&stream, Guide_fields, &guide) ? stream.bytes_written : 0;
}

int nanopb_decode(const uint8_t *bytes, size_t count)
{
    pb_istream_t stream = pb_istream_from_buffer(bytes, count);
    return pb_decode(&stream, Guide_fields, &guide) ? 1 : 0;
}
