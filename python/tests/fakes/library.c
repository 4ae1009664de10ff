/* A fake library, for what the module does by itself: it echoes what it was lent.
 *
 * The parts of a set are joined by '|'. A set that begins with "fault" is refused: it goes on with the fault's number, set, record
 * type, CENID in hexadecimal and three numbers. With the set 3, compare reports the one that has the fault. A set that is "sleep" takes
 * half a second, and one that is "large" is answered by 70 MB. Of a part of 1 MiB and more its length and its last byte are echoed.
 */
#include <tigercanon.h>

#include <string.h>
#include <unistd.h>

static bool is_large(const struct tigercanon_part *part) { return part->length >> 20 > 0; }

static char *joined(const struct tigercanon_part *parts, size_t count, size_t *length)
{
    size_t i, size = 0;
    char *text, *end;
    for (i = 0; i < count; i++) size += is_large(&parts[i]) ? 40 : parts[i].length + 1;
    end = text = malloc(size + 1);
    for (i = 0; i < count; i++) {
        if (is_large(&parts[i])) {
            end += sprintf(end, "%zu to %c", parts[i].length, parts[i].bytes[parts[i].length - 1]);
        } else {
            memcpy(end, parts[i].bytes, parts[i].length);
            end += parts[i].length;
        }
        *end++ = '|';
    }
    if (count > 0) end--;
    *end = 0;
    *length = (size_t)(end - text);
    return text;
}

static uint8_t judged(const struct tigercanon_part *parts, size_t count, struct tigercanon_fault *fault)
{
    size_t length;
    unsigned number, set, cenid[5], i;
    unsigned long long numbers[3];
    char type, *text = joined(parts, count, &length);
    uint8_t status = TIGERCANON_DONE;
    memset(fault, 0, sizeof *fault);
    if (strcmp(text, "sleep") == 0) usleep(500000);
    if (sscanf(text, "fault %u %u %c %2x%2x%2x%2x%2x %llu %llu %llu", &number, &set, &type, cenid, cenid + 1, cenid + 2, cenid + 3,
               cenid + 4, numbers, numbers + 1, numbers + 2) == 11) {
        fault->number = (uint8_t)number;
        fault->set = (uint8_t)set;
        fault->record_type = (uint8_t)type;
        for (i = 0; i < 5; i++) fault->cenid[i] = (uint8_t)cenid[i];
        fault->first = numbers[0];
        fault->second = numbers[1];
        fault->third = numbers[2];
        status = number == 9 ? TIGERCANON_MEMORY : TIGERCANON_REFUSED;
    }
    free(text);
    return status;
}

static void answer(const struct tigercanon_part *parts, size_t count, const char *flags, struct tigercanon_text *text)
{
    size_t length, more = strlen(flags);
    char *made = joined(parts, count, &length);
    if (strcmp(made, "large") == 0) {
        length = 70u << 20;
        made = realloc(made, length + more);
        memset(made, 'x', length);
        made[length - 1] = 'y';
    } else {
        made = realloc(made, length + more + 1);
    }
    memcpy(made + length, flags, more);
    length += more;
    if (length == 0) free(made);
    text->bytes = length == 0 ? TIGERCANON_EMPTY : (const uint8_t *)made;
    text->length = length;
}

static const char *flags_of(bool no_sources, bool no_reserved)
{
    return no_sources ? (no_reserved ? "+both" : "+no_sources") : no_reserved ? "+no_reserved" : "";
}

uint8_t tigercanon_check(const struct tigercanon_part *parts, size_t count, struct tigercanon_fault *fault)
{
    return judged(parts, count, fault);
}

uint8_t tigercanon_respell(const struct tigercanon_part *parts, size_t count, struct tigercanon_text *text,
                           struct tigercanon_fault *fault)
{
    uint8_t status = judged(parts, count, fault);
    if (status == TIGERCANON_DONE) answer(parts, count, "", text);
    return status;
}

uint8_t tigercanon_normalise(const struct tigercanon_part *parts, size_t count, bool no_sources, bool no_reserved,
                             struct tigercanon_text *text, struct tigercanon_fault *fault)
{
    uint8_t status = judged(parts, count, fault);
    if (status == TIGERCANON_DONE) answer(parts, count, flags_of(no_sources, no_reserved), text);
    return status;
}

uint8_t tigercanon_fingerprint(const struct tigercanon_part *parts, size_t count, bool no_sources, bool no_reserved,
                               struct tigercanon_hash *hash, struct tigercanon_fault *fault)
{
    size_t length;
    char *text = joined(parts, count, &length);
    uint8_t status = judged(parts, count, fault);
    if (status == TIGERCANON_DONE) {
        memset(hash->bytes, 0, sizeof hash->bytes);
        memcpy(hash->bytes, text, length < 31 ? length : 31);
        hash->bytes[31] = (uint8_t)(no_sources + 2 * no_reserved);
    }
    free(text);
    return status;
}

uint8_t tigercanon_compare(const struct tigercanon_part *first, size_t first_count, const struct tigercanon_part *second,
                           size_t second_count, bool no_sources, bool no_reserved, struct tigercanon_fault *fault)
{
    size_t one_length, other_length;
    char *one, *other;
    uint8_t set = 1, status = judged(first, first_count, fault);
    if (status == TIGERCANON_DONE) status = judged(second, second_count, fault), set = 2;
    if (status != TIGERCANON_DONE) {
        if (fault->set == 3) fault->set = set;
        return status;
    }
    one = joined(first, first_count, &one_length);
    other = joined(second, second_count, &other_length);
    /* With both flags everything is the same, and with one nothing is. */
    status = (strcmp(one, other) == 0 && no_sources == no_reserved) || (no_sources && no_reserved) ? TIGERCANON_DONE
                                                                                                   : TIGERCANON_DIFFERENT;
    free(one);
    free(other);
    return status;
}
