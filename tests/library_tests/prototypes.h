/* The calls that include/tigercanon.h declares, and no others. */

uint8_t tigercanon_check(const struct tigercanon_part *parts, size_t count, struct tigercanon_fault *fault);
uint8_t tigercanon_respell(const struct tigercanon_part *parts, size_t count, struct tigercanon_text *text,
                           struct tigercanon_fault *fault);
uint8_t tigercanon_normalise(const struct tigercanon_part *parts, size_t count, bool no_sources, bool no_reserved,
                             struct tigercanon_text *text, struct tigercanon_fault *fault);
uint8_t tigercanon_fingerprint(const struct tigercanon_part *parts, size_t count, bool no_sources, bool no_reserved,
                               struct tigercanon_hash *hash, struct tigercanon_fault *fault);
uint8_t tigercanon_compare(const struct tigercanon_part *first, size_t first_count, const struct tigercanon_part *second,
                           size_t second_count, bool no_sources, bool no_reserved, struct tigercanon_fault *fault);
static inline void tigercanon_free(struct tigercanon_text *text);
static inline void tigercanon_line(const struct tigercanon_fault *fault, char line[TIGERCANON_LINE]);
