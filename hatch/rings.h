/* The ring engine for C: one compound in, its ring families, one minimum cycle basis and its classes of rings out.
 *
 * A compound has n atoms, numbered 0 to n - 1, and its bonds, numbered from 0 in the order given. Bonds are lent as bytes or
 * as records, and the answer is the same: bond k joins the atoms bonds[2 * k] and bonds[2 * k + 1] of bytes, or bonds[k].a and
 * bonds[k].b of records; either may come first. What is answered has 1 to 64 atoms and at most 96 bonds, is in one piece, and no
 * two of its bonds join the same two atoms, nor one an atom to itself; anything else is refused.
 *
 * Every input gets the full answer or one numbered refusal, so no caller looks at atoms, bonds or room first. A refused call
 * leaves both row buffers as they were.
 *
 * The caller owes what C cannot check: no pointer is NULL, not even with length 0; each buffer has the length that is said; and
 * neither row buffer overlaps the other or the bonds. Lengths are in bytes, but for the number of records. No alignment is asked,
 * and the bonds are only read. Nothing is allocated or kept between calls: calls with different row buffers may run at the same
 * time, on the same bonds too.
 *
 * A call takes less than 8 KiB of stack (measured). The archive is for x86-64 with the System V calling convention, and takes
 * memcpy and memset from outside and nothing else. A call runs the engine once, or twice if there are more than 16 families or 8
 * classes. To learn the room that a compound needs, lend 0 bytes: refusal 7 names the family rows, and refusal 8, once these are
 * lent, the class rows; 82 of them are always enough.
 *
 * The words: the sum of two sets of bonds holds the bonds in exactly one of them. A ring is relevant if no set of strictly shorter
 * rings sums to it. A family is the relevant rings that share length, r, p, q and x; its prototype is the one whose two paths down
 * to r take the lowest-numbered atom at each step. The basis is a minimum cycle basis: its sums give every set of bonds that meets
 * each atom an even number of times, and no other such set of rings has a smaller total length. Two rings are of one class if one
 * can replace the other in some minimum cycle basis.
 *
 * All calls write rows from byte 0 of their buffers with no gaps, and leave the bytes after the last row as they were.
 *
 * Family row, 8 bytes. Rows are ordered by length, r, x, p, q.
 *     0  length         the bonds in each ring of the family
 *     1  r              its top atom, the highest-numbered atom of each of its rings
 *     2  p              the two atoms opposite r, p < q: bonded to each other if the length is odd,
 *     3  q              both bonded to x if it is even
 *     4  x              the atom between p and q, or RINGS_ODD
 *     5  basis mark     1 if the family's prototype is in the basis, 0 if not
 *     6  class          the number of its class: the row of the class in the class rows
 *     7  0
 *
 * Class row, 5 bytes. Classes are numbered from 0 by their first family.
 *     0  length         the bonds in each ring of the class
 *     1  relative rank  how many rings of the class any minimum basis holds
 *     2  families       the number of its families: row[2] + 256 * row[3]
 *     3
 *     4  essential mark 1 if the class has exactly one family, 0 if not
 *
 * RINGS_FAMILY_BYTES and RINGS_CLASS_BYTES are room for the most rows that are ever written. A smaller buffer will do where
 * it has room for the rows of the compound.
 */
#ifndef RINGS_H
#define RINGS_H

#include <stddef.h>
#include <stdint.h>

#ifdef __cplusplus
extern "C" {
#endif

#define RINGS_FAMILY_ROW 8
#define RINGS_CLASS_ROW 5
#define RINGS_FAMILY_BYTES (4096 * RINGS_FAMILY_ROW)
#define RINGS_CLASS_BYTES (82 * RINGS_CLASS_ROW)
#define RINGS_ODD 255

/* The refusals. Each is given in exactly the stated case when no earlier one holds; 3, 4 and 5 are tried bond by bond. */
enum rings_refusal {
    RINGS_ANSWERED = 0,       /* no refusal: the answer is full                                            at: 0 */
    RINGS_WRONG_ATOMS = 1,    /* n is 0 or above 64                                                        at: 0 */
    RINGS_WRONG_BYTES = 2,    /* the bond bytes are odd in number, or there are more than 96 bonds         at: 0 */
    RINGS_NO_ATOM = 3,        /* a bond names an atom n or above                                           at: the bond */
    RINGS_LOOP = 4,           /* a bond joins an atom to itself                                            at: the bond */
    RINGS_AGAIN = 5,          /* an earlier bond joins the same two atoms, either way round                at: the bond */
    RINGS_PIECES = 6,         /* the compound is in more than one piece                                    at: 0 */
    RINGS_FEW_ROWS = 7,       /* more families than family rows lent (bytes / 8), or than 4096             at: rows needed */
    RINGS_FEW_CLASS_ROWS = 8, /* more classes than class rows lent (bytes / 5)                             at: rows needed */
    RINGS_MANY_RINGS = 9      /* more rings than UINT64_MAX                                                at: 0 */
};

/* A bond as a record of two bytes. */
typedef struct rings_bond {
    uint8_t a; /* the number of one atom */
    uint8_t b; /* the number of the other */
} rings_bond;

/* What a call answers. In a refusal all but refusal and at are 0. */
typedef struct rings_reply {
    uint64_t refusal;    /* RINGS_ANSWERED, or why the call is refused */
    uint64_t at;         /* what the refusal names: a bond, or how many rows are needed */
    uint64_t cyclomatic; /* bonds - atoms + 1: the number of rings in the basis */
    uint64_t families;   /* the number of family rows written */
    uint64_t classes;    /* the number of class rows written */
    uint64_t total;      /* the total length of the basis */
    uint64_t rings;      /* the number of relevant rings: the sum of the sizes of all families */
    uint64_t size;       /* the number of rings of the family asked for; 0 past the last row, and in a call that asks for none */
} rings_reply;

/* The ring families of a compound, whose bonds are lent as bytes. */
rings_reply rings_families(size_t n, const uint8_t *bonds, size_t bond_bytes, uint8_t *family_rows, size_t family_bytes,
                           uint8_t *class_rows, size_t class_bytes);

/* The same in all, and the size of the family of one row, counted from 0; past the last row the size is 0. */
rings_reply rings_family_size(size_t n, const uint8_t *bonds, size_t bond_bytes, uint8_t *family_rows, size_t family_bytes,
                              uint8_t *class_rows, size_t class_bytes, size_t row);

/* The ring families of a compound, whose bonds are lent as records. */
rings_reply rings_families_of(size_t n, const rings_bond *bonds, size_t bond_count, uint8_t *family_rows, size_t family_bytes,
                              uint8_t *class_rows, size_t class_bytes);

/* The same in all, and the size of the family of one row, counted from 0; past the last row the size is 0. */
rings_reply rings_family_size_of(size_t n, const rings_bond *bonds, size_t bond_count, uint8_t *family_rows,
                                 size_t family_bytes, uint8_t *class_rows, size_t class_bytes, size_t row);

#ifdef __cplusplus
}
#endif

#endif
