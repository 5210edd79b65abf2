/* Cenguatu's dispatcher: turns among 32 queues of up to 16 items. `tools/build archive dispatcher` makes the archive to link,
   target/staticlib/libdispatcher.a. */
#ifndef CENGUATU_DISPATCHER_H
#define CENGUATU_DISPATCHER_H

#include <stdint.h>

#ifdef __cplusplus
extern "C" {
#endif

/* A state is so many words of the caller's; all of them 0 is the empty one. Any words are some state, so none has to be checked. */
#define CENGUATU_DISPATCHER_WORDS 577

/* Puts an item, any word, behind those that wait in a queue, 0 to 31. Answers 0; else a refusal's number, 13 for a queue above 31, then 14
   for one in which 16 items wait, and no word has changed. */
uint32_t cenguatu_add(uint32_t *state, uint32_t queue, uint32_t item);

/* Takes the oldest item of the next waiting queue after the one served last, going round; before any is served the round begins at 0.
   Answers 1, and got[0] is the queue, got[1] its item, got[2] the number of queues looked at, the served one included. If none waits it
   answers 0, got is 0, 0 and 32, and no word of the state has changed. A queue that waits is served within 32 takes.

   state is CENGUATU_DISPATCHER_WORDS words and got three, aligned, not null, and they don't overlap. Neither call keeps anything or takes
   memory but stack. Calls on one state are made one after the other; on different states they may be made from different threads. */
uint32_t cenguatu_take(uint32_t *state, uint32_t *got);

#ifdef __cplusplus
}
#endif

#endif
