/*
 * A complete small host: reads a sheet, lists the faces that a post house may see, asks for the
 * verdicts on each table, and handles refusals.
 *
 *   cc -I include examples/host.c target/staticlib/libfiddlecomet.a -o host && ./host examples/fonts.sheet
 *
 * It is C and C++ alike. What it prints for examples/fonts.sheet stands in examples/host.out.
 */
#include "fiddlecomet.h"

#include <stdio.h>
#include <string.h>

/* What each refusal says, by number. */
static const char *const sentences[] = {
    "answered",
    "sheet over 16,384 bytes",
    "a field isn't wholly there",
    "edition other than 1",
    "a count not allowed",
    "kind 3, variable 24..31, operator 9..15",
    "column, key or table number not below its count; a held column at or above the column count",
    "equated variables of unlike kinds, an order operator on a non-integer, a value not of the kind",
    "no command",
    "a selector node at depth seven",
    "a padding bit 1, or bytes left over",
    "a selector matches a table without a column that the policy's atoms use",
    "table or policy number asked not there, or command over 3",
    "N over 256",
    "output too short",
    "session or row list not of the form",
    "the normal form is longer than its sheet",
};

/* Bytes being packed, most significant bit first. */
typedef struct {
    uint8_t bytes[256];
    size_t bits;
} packing;

static void put(packing *p, uint64_t value, int width) {
    for (int bit = width - 1; bit >= 0; bit--, p->bits++)
        if (value >> bit & 1) p->bytes[p->bits / 8] |= (uint8_t)(0x80 >> p->bits % 8);
}

static void put_null(packing *p) { put(p, 0, 1); }

static void put_value(packing *p, uint64_t value) {
    put(p, 1, 1);
    put(p, value, 64);
}

/* A session or row ends with its byte; zero bits fill it. */
static void end(packing *p) { p->bits = (p->bits + 7) / 8 * 8; }

static size_t length(const packing *p) { return p->bits / 8; }

/* The 64 bits at a bit number of listed rows. */
static uint64_t value_at(const uint8_t *bytes, size_t bit) {
    uint64_t value = 0;
    for (size_t n = bit; n < bit + 64; n++) value = value << 1 | (bytes[n / 8] >> (7 - n % 8) & 1u);
    return value;
}

/* A row of faces: the house that it belongs to, and the face. */
static void put_face(packing *p, uint64_t house, uint64_t face) {
    put_value(p, house);
    put_value(p, face);
    end(p);
}

static void refused(const char *what, uint32_t refusal) {
    printf("%s: refused %u, %s\n", what, (unsigned)refusal, sentences[refusal]);
}

/* Lists the faces of three houses for a session of house 7 (key 0), of no role (key 1). */
static int list_faces(const uint8_t *sheet, size_t sheet_len) {
    packing session, rows;
    uint8_t out[256];
    memset(&session, 0, sizeof session);
    memset(&rows, 0, sizeof rows);
    put_value(&session, 7);
    put_null(&session);
    end(&session);
    put_face(&rows, 7, 101);
    put_face(&rows, 8, 102);
    put_face(&rows, 7, 103);
    put_face(&rows, 9, 104);

    fiddlecomet_listed listed = fiddlecomet_listing(sheet, sheet_len, 0, FIDDLECOMET_SELECT, session.bytes,
        length(&session), rows.bytes, length(&rows), out, sizeof out);
    if (listed.refusal != 0) {
        refused("faces", listed.refusal);
        return 0;
    }
    printf("faces: %u rows, %u bytes\n", (unsigned)listed.rows, (unsigned)listed.length);
    /* A row of two values has 130 bits: 17 bytes. */
    for (size_t row = 0; row < listed.rows; row++) {
        unsigned long long house = value_at(out, row * 136 + 1), face = value_at(out, row * 136 + 66);
        printf("  house %llu face %llu\n", house, face);
    }
    return 1;
}

static void verdicts(const uint8_t *sheet, size_t sheet_len, uint32_t table) {
    char what[32];
    snprintf(what, sizeof what, "table %u", (unsigned)table);
    fiddlecomet_life life = fiddlecomet_dead(sheet, sheet_len, table, FIDDLECOMET_SELECT);
    fiddlecomet_isolation isolation = fiddlecomet_isolated(sheet, sheet_len, table, FIDDLECOMET_SELECT);
    if (life.refusal != 0) {
        refused(what, life.refusal);
    } else if (isolation.leaks) {
        printf("%s: %s, leaks by branches %u and %u\n", what, life.dead ? "dead" : "live", (unsigned)isolation.a,
            (unsigned)isolation.b);
    } else {
        printf("%s: %s, isolated\n", what, life.dead ? "dead" : "live");
    }
}

int main(int argc, char **argv) {
    static uint8_t sheet[FIDDLECOMET_SHEET_BYTES + 1], normal[FIDDLECOMET_SHEET_BYTES];
    FILE *file = argc == 2 ? fopen(argv[1], "rb") : NULL;
    if (file == NULL) {
        fprintf(stderr, "usage: host SHEET\n");
        return 2;
    }
    size_t sheet_len = fread(sheet, 1, sizeof sheet, file);
    fclose(file);

    if (!list_faces(sheet, sheet_len)) return 1;
    for (uint32_t table = 0; table < 4; table++) verdicts(sheet, sheet_len, table);

    fiddlecomet_cover cover = fiddlecomet_covers(sheet, sheet_len, 0, 1);
    printf("policy 0 %s policy 1\n", cover.covers ? "covers" : "does not cover");
    fiddlecomet_branch_count branches = fiddlecomet_branches(sheet, sheet_len, 2, FIDDLECOMET_SELECT);
    printf("table 2: %llu branches\n", (unsigned long long)branches.count);
    fiddlecomet_written written = fiddlecomet_normal_form(sheet, sheet_len, normal, sizeof normal);
    printf("normal form: %u of %u bytes\n", (unsigned)written.length, (unsigned)sheet_len);

    /* A sheet that lost its last byte on the way is refused, and so is nothing at all. */
    refused("a cut sheet", fiddlecomet_dead(sheet, sheet_len - 1, 0, FIDDLECOMET_SELECT).refusal);
    refused("no sheet", fiddlecomet_dead(NULL, 0, 0, FIDDLECOMET_SELECT).refusal);
    return 0;
}
