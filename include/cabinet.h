/* The cabinet rule: does an entry that is offered take the place of the one that is held?
   Link libfirmware.a, which `rt lib` in crates/firmware makes for x86-64.

   An entry is 20 bytes, laid out as in XDR (RFC 4506); each number has its most significant byte first.

       +--+--+--+--+--+--+--+--+--+--+--+--+--+--+--+--+--+--+--+--+
       | 0| 1| 2| 3| 4| 5| 6| 7| 8| 9|10|11|12|13|14|15|16|17|18|19|
       +--+--+--+--+--+--+--+--+--+--+--+--+--+--+--+--+--+--+--+--+
       |        counter        |  writer   |  reading  |  minutes  |
       +-----------------------+-----------+-----------+-----------+

       bytes  0 to  7   counter   unsigned hyper   any
       bytes  8 to 11   writer    unsigned int     0 to 8
       bytes 12 to 15   reading   int              0 unknown, 1 open, 2 closed
       bytes 16 to 19   minutes   unsigned int     0 to 240 when open and 0 otherwise

   Counter and writer are the stamp, compared by counter, then writer: (1,1) < (1,2) < (2,1). */
#ifndef CABINET_H
#define CABINET_H

#include <stddef.h>
#include <stdint.h>

#ifdef __cplusplus
extern "C" {
#endif

#define CABINET_ENTRY_BYTES 20

/* The offered stamp is greater than the held one: held now equals offered. */
#define CABINET_TAKEN 20
/* The offered stamp is less than the held one or equal to it, whatever the readings: held is unchanged. */
#define CABINET_KEPT 21
/* One of the buffers is no entry: it has not 20 bytes, or a number that the table above does not allow. Neither
   buffer has changed. */
#define CABINET_REFUSED 2

/* Returns one of the three above; offered never changes. Lengths are in bytes.

   The bytes and lengths are checked. The following cannot be, and is for the caller to keep:
   - The two buffers must not overlap.
   - No pointer may be NULL, not even with length 0.
   - No length may exceed its buffer.
   - No other thread may touch the buffers during the call.

   The call is not atomic on power loss, which may leave held part old and part new: lend it working memory, and
   copy held to stable storage yourself. */
uint32_t cabinet_offer(uint8_t *held, size_t held_len, const uint8_t *offered, size_t offered_len);

#ifdef __cplusplus
}
#endif

#endif
