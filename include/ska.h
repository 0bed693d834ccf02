/* SKA: ordered lists of uint32_t keys in words that the caller lends. A C program needs this page and the library, nothing else
   (`rt lib` in crates/ska_c writes it, for x86-64: crates/ska_c/out/libska_c.a). Every call is proved against its promise.

   The words. An arena is an array of uint32_t with L lists (1 to 16), M levels of links (1 to 16) and C nodes (1 to 65535), a node
   for each key. It has exactly SKA_WORDS(L, M, C) words. ska_set_up makes one; its words may be copied, stored and lent again
   elsewhere. A list is named by its number, 0 to L - 1. Keys stand in order, equal keys are allowed; the first key has index 0.

   What a call on an arena does. It checks the whole arena (3 to 6 instructions for each word) and then acts. It answers 0
   where it is accepted, else the number of the refusal, the lowest that applies. A refusal changes no word of the arena, and every
   out-parameter is then 0; but with SKA_BEYOND *tally is the allowance. Words and numbers may be any. Every call ends.

   What a pointer must be. Not null, even where n is 0; aligned for its type. w points to n words that the call may read and,
   where w is not const, write. An out-parameter points to one number that the call may write; it overlaps neither w nor another
   out-parameter. This a call cannot check: the caller vouches for it.

   Threads and interrupts. The library has no variables of its own, takes no lock and calls nothing outside itself. On one arena
   one call runs at a time, also where one interrupts another; calls with const w may run beside each other. Calls on different
   arenas never meet.

   Memory. No heap. A call takes at most 1104 bytes of stack (ska_append; every other at most 800). This is the sum of the frames
   in the library's disassembly along the deepest chain of calls, with return addresses and with the 128 bytes below the stack
   pointer that the x86-64 System V convention gives a function that calls no other. A handler on the same stack must keep off
   those 128. A run on a painted stack used 1088. The code uses the general and the SSE registers. The figures are those of an older
   kit's compiler. */
#ifndef SKA_H
#define SKA_H

#include <stddef.h>
#include <stdint.h>

#ifdef __cplusplus
extern "C" {
#endif

/* How many words an arena of these sizes has: a constant where its arguments are. */
#define SKA_WORDS(lists, levels, nodes) (8UL + ((lists) + 0UL + (nodes)) * (4UL + 2UL * (levels)))

/* The allowance of a search that may take as many comparisons as it needs. */
#define SKA_NO_LIMIT 4294967295u

/* What a call answers. */
enum ska_refusal {
    SKA_ACCEPTED = 0,
    SKA_BROKEN = 1,      /* the words are no arena, or were damaged: they do not pass the check */
    SKA_BAD_SIZES = 2,   /* set-up: lists, levels or nodes out of range, or n is not SKA_WORDS of them */
    SKA_NO_LIST = 3,     /* a list number is not below the number of lists */
    SKA_SAME_LIST = 4,   /* the two lists named are the same */
    SKA_TOO_HIGH = 5,    /* the height is above the number of levels */
    SKA_FULL = 6,        /* insert: every node is used */
    SKA_NOT_EMPTY = 7,   /* split: the receiving list has keys */
    SKA_PAST_END = 8,    /* no key has this index; a split at more than the length; the middle of an empty list */
    SKA_NO_KEY = 9,      /* remove by key: the list has no such key */
    SKA_BEYOND = 10,     /* search: it needs more comparisons than the allowance */
    SKA_LINK_ZERO = 11,  /* a link distance is 0 */
    SKA_LINK_TOP = 12,   /* a link distance of 4294967295 is raised */
    SKA_LINK_LAST = 13   /* a link distance of 1 is lowered */
};

/* Makes empty lists and free nodes of any words; n must be SKA_WORDS(lists, levels, nodes).
   Refusal 2. */
uint32_t ska_set_up(uint32_t *w, size_t n, uint32_t lists, uint32_t levels, uint32_t nodes);

/* Whether the words are an arena that passes the check: 1 yes, 0 no. This is no refusal number.
   For any words, n = 0 included. */
uint32_t ska_check(const uint32_t *w, size_t n);

/* Looks a key up with at most `allowance` comparisons. Found: *found is 1, and *place the index of the first equal key. Missing:
   *found is 0, and *place the index at which it would stand. Either is the number of smaller keys. *tally is the comparisons made.
   Refusals 1, 3, 10. */
uint32_t ska_search(const uint32_t *w, size_t n, uint32_t list, uint32_t key, uint32_t allowance, uint32_t *found, uint32_t *place,
                    uint32_t *tally);

/* The key at an index, in *key.
   Refusals 1, 3, 8. */
uint32_t ska_read(const uint32_t *w, size_t n, uint32_t list, uint32_t index, uint32_t *key);

/* Puts a key before the first that is not below it. Its height, 0 to M, is on how many levels it has links: give 0 where you have
   none, and call ska_level from time to time.
   Refusals 1, 3, 5, 6. */
uint32_t ska_insert(uint32_t *w, size_t n, uint32_t list, uint32_t key, uint32_t height);

/* Removes the first node of a key; *removed is the key.
   Refusals 1, 3, 9. */
uint32_t ska_remove_key(uint32_t *w, size_t n, uint32_t list, uint32_t key, uint32_t *removed);

/* Removes the node at an index; *removed is its key.
   Refusals 1, 3, 8. */
uint32_t ska_remove_at(uint32_t *w, size_t n, uint32_t list, uint32_t index, uint32_t *removed);

/* Keeps the first `count` keys and frees the nodes of the rest; nothing where there are no more.
   Refusals 1, 3. */
uint32_t ska_truncate(uint32_t *w, size_t n, uint32_t list, uint32_t count);

/* Keeps no key.
   Refusals 1, 3. */
uint32_t ska_clear(uint32_t *w, size_t n, uint32_t list);

/* Moves what stands from an index on into an empty list; at the length nothing moves.
   Refusals 1, 3, 4, 7, 8. */
uint32_t ska_split_at(uint32_t *w, size_t n, uint32_t from, uint32_t to, uint32_t index);

/* The same at the number of smaller keys, so that equal keys move.
   Refusals 1, 3, 4, 7. */
uint32_t ska_split_key(uint32_t *w, size_t n, uint32_t from, uint32_t to, uint32_t key);

/* Brings list b into list a, in order; b ends empty.
   Refusals 1, 3, 4. */
uint32_t ska_append(uint32_t *w, size_t n, uint32_t a, uint32_t b);

/* Twice the median, in *twice: the sum of the keys at indexes (length - 1) / 2 and length / 2, both rounded down. It can pass
   4294967295, so it has 64 bits.
   Refusals 1, 3, 8. */
uint32_t ska_middle(const uint32_t *w, size_t n, uint32_t list, uint64_t *twice);

/* Gives every node of a list its height anew: the k-th node the number of times 2 divides k, at most M. A search in fewer than
   2^(M+1) keys then takes at most 2M + 2 comparisons.
   Refusals 1, 3. */
uint32_t ska_level(uint32_t *w, size_t n, uint32_t list);

/* A link distance alone: made, raised by one, lowered by one; the new one in *distance.
   Refusals 11; 11, 12; 11, 13. */
uint32_t ska_link_make(uint32_t d, uint32_t *distance);
uint32_t ska_link_raise(uint32_t d, uint32_t *distance);
uint32_t ska_link_lower(uint32_t d, uint32_t *distance);

#ifdef __cplusplus
}
#endif

#endif
