/* Lists the rings of one compound: two atoms joined by three paths of three bonds each. It is lent as bytes for the listing, and
 * as records for the size of each family.
 *
 *     (cd crates/hatch && rt lib) && mkdir -p target
 *     cc -o target/example hatch/example.c crates/hatch/out/libhatch.a && target/example
 */
#include <inttypes.h>
#include <stdio.h>

#include "rings.h"

int main(void) {
    static const uint8_t bonds[] = {0, 2, 2, 3, 3, 1, 0, 4, 4, 5, 5, 1, 0, 6, 6, 7, 7, 1};
    static const rings_bond records[] = {{0, 2}, {2, 3}, {3, 1}, {0, 4}, {4, 5}, {5, 1}, {0, 6}, {6, 7}, {7, 1}};
    static uint8_t families[RINGS_FAMILY_BYTES];
    static uint8_t classes[RINGS_CLASS_BYTES];
    const size_t atoms = 8, count = sizeof records / sizeof records[0];

    rings_reply r = rings_families(atoms, bonds, sizeof bonds, families, sizeof families, classes, sizeof classes);
    if (r.refusal != RINGS_ANSWERED) {
        printf("refused=%" PRIu64 "\nat=%" PRIu64 "\n", r.refusal, r.at);
        return 1;
    }
    printf("atoms=%zu\nbonds=%zu\n", atoms, count);
    printf("cyclomatic=%" PRIu64 "\nfamilies=%" PRIu64 "\nclasses=%" PRIu64 "\n", r.cyclomatic, r.families, r.classes);
    printf("total=%" PRIu64 "\nrings=%" PRIu64 "\n", r.total, r.rings);
    for (size_t row = 0; row < r.families; row++) {
        const uint8_t *f = families + RINGS_FAMILY_ROW * row;
        rings_reply of_row = rings_family_size_of(atoms, records, count, families, sizeof families, classes, sizeof classes, row);
        if (of_row.refusal != RINGS_ANSWERED) {
            return 1;
        }
        printf("family=%u,%u,%u,%u,", f[0], f[1], f[2], f[3]);
        if (f[4] == RINGS_ODD) {
            printf("-");
        } else {
            printf("%u", f[4]);
        }
        printf(",%u,%u,%" PRIu64 "\n", f[5], f[6], of_row.size);
    }
    for (size_t row = 0; row < r.classes; row++) {
        const uint8_t *c = classes + RINGS_CLASS_ROW * row;
        printf("class=%zu,%u,%u,%u,%u\n", row, c[0], c[1], c[2] + 256u * c[3], c[4]);
    }
    return 0;
}
