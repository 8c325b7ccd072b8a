/* The header's replies, laid out as the bindings take them: it fails to compile if one is not. */
#include "fiddlecomet.h"

#define MUST(name, fact) typedef char name[(fact) ? 1 : -1]

MUST(listed_size, sizeof(fiddlecomet_listed) == 12);
MUST(listed_length, offsetof(fiddlecomet_listed, length) == 4);
MUST(listed_rows, offsetof(fiddlecomet_listed, rows) == 8);
MUST(written_size, sizeof(fiddlecomet_written) == 8);
MUST(written_length, offsetof(fiddlecomet_written, length) == 4);
MUST(life_size, sizeof(fiddlecomet_life) == 8);
MUST(life_dead, offsetof(fiddlecomet_life, dead) == 4);
MUST(isolation_size, sizeof(fiddlecomet_isolation) == 16);
MUST(isolation_leaks, offsetof(fiddlecomet_isolation, leaks) == 4);
MUST(isolation_a, offsetof(fiddlecomet_isolation, a) == 8);
MUST(isolation_b, offsetof(fiddlecomet_isolation, b) == 12);
MUST(cover_size, sizeof(fiddlecomet_cover) == 8);
MUST(cover_covers, offsetof(fiddlecomet_cover, covers) == 4);
MUST(branch_count_size, sizeof(fiddlecomet_branch_count) == 16);
MUST(branch_count_count, offsetof(fiddlecomet_branch_count, count) == 8);
