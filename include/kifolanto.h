/* The proved calls, for programs in C and in every language that can link C.

   Every input is answered or refused: there is nothing that a caller has to check first. No call allocates, keeps
   anything from one call to the next, or writes anywhere but in the rows that it is lent.

   What no proof on the other side of this line can see stays with the caller: a row is a pointer that is not null
   with that many cells behind it, and the two rows do not overlap.

   Link libcapi.a, which tools/build capi makes. */
#ifndef KIFOLANTO_H
#define KIFOLANTO_H

#include <stddef.h>
#include <stdint.h>

#ifdef __cplusplus
extern "C" {
#endif

/* Number and place of a refusal, and the letter of the layer that gave it: 'A' address, 'R' chance, 'P' plan, 'C' these
   calls themselves. All three are 0 where the call was answered, and where it was refused the answer is 0. */
typedef struct {
    uint32_t number;
    uint32_t place;
    uint8_t layer;
} kifolanto_refused;

/* An enclosure: the exact chance lies from lo to hi, in units of one part in 2^40. */
typedef struct {
    kifolanto_refused refused;
    uint64_t lo;
    uint64_t hi;
} kifolanto_ends;

typedef struct {
    kifolanto_refused refused;
    uint32_t value;
} kifolanto_number;

typedef struct {
    kifolanto_refused refused;
    uint32_t whole;
    uint32_t part;
} kifolanto_address_answer;

/* The chance that the plan n1, Ac1, Re1, n2, Ac2 passes a reel of `reel` frames of which `bad` are bad. Rule 1 draws
   without replacement, rule 2 with. The rows are worked in and need Ac2 + 1 cells each.
   Refused: 61 C no such rule (the code); 31, 32, 33 P as a plan is made; 21, 22, 24, 23 R as chance refuses. */
kifolanto_ends kifolanto_chance(uint32_t rule, uint32_t reel, uint32_t bad, uint32_t n1, uint32_t ac1, uint32_t re1,
                                uint32_t n2, uint32_t ac2, uint64_t *low, size_t low_cells, uint64_t *high,
                                size_t high_cells);

/* The smallest single sample that, with `tolerance` bad frames, has at most `accept` of them in no more than `limit`
   millionths of what the rule may draw. The rows need accept + 1 cells each.
   Refused: 61 C; 21, 22, 26, 25, 23, 27, 28 R as smallest refuses. */
kifolanto_number kifolanto_smallest(uint32_t rule, uint32_t reel, uint32_t tolerance, uint32_t limit, uint32_t accept,
                                    uint64_t *low, size_t low_cells, uint64_t *high, size_t high_cells);

/* The frame of an address, and the address of a frame. Scheme 1 is 35 mm feet and frames, 2 16 mm feet and frames, 3
   timecode at 24 a second. Refused: 61 C no such scheme (the code); 11, 12 A as locate refuses; 12 A as address does. */
kifolanto_number kifolanto_locate(uint32_t scheme, uint32_t reel, uint32_t whole, uint32_t part);

kifolanto_address_answer kifolanto_address(uint32_t scheme, uint32_t reel, uint32_t frame);

#ifdef __cplusplus
}
#endif

#endif
