/* The header alone: in a program of its own it compiles as C99, C11, C++11 and C++17 (scripts/test/c_tests.sh), and
 * says what the library says. */
#include "linkwire.h"

#ifdef __cplusplus
static_assert(sizeof(linkwire_attribute) == 3 * sizeof(size_t), "the layout of an attribute");
static_assert(sizeof(linkwire_refusal) == 8 * sizeof(size_t), "the layout of a refusal");
#endif

/* A request, and what its message says. */
static int writes(void) {
    uint8_t list[64] = {0};
    char out[256];
    struct linkwire_writer writer = linkwire_writer_at(list, sizeof list, LINKWIRE_HEADER_SIZE);
    size_t nest = linkwire_nest_begin(&writer, 18);
    linkwire_put_text(&writer, 1, "vlan");
    linkwire_nest_end(&writer, nest);
    linkwire_put_u32(&writer, 4, 1400);
    return writer.refused == 0 && writer.at == 40 &&
           linkwire_show(list, writer.at, linkwire_order("6.12.1", 6), 0, out, sizeof out) > 0 &&
           linkwire_operstate_name(0) && linkwire_linkmode_name(0) && linkwire_flag_name(0) && linkwire_type_name(1) &&
           linkwire_name(1);
}

/* What changed of it, and what is refused of it. */
static int compares(void) {
    const uint8_t was[LINKWIRE_HEADER_SIZE] = {0};
    const uint8_t is[] = {0, 0, 0, 0, 0, 0, 0, 0, 0, 0, 0, 0, 0, 0, 0, 0, 5, 0, 4, 0, 1};
    struct linkwire_refusal refusal;
    char out[256];
    size_t at = 0;
    return linkwire_diff(was, sizeof was, is, sizeof is, LINKWIRE_ORDER_UNKNOWN, LINKWIRE_LENIENT | LINKWIRE_COUNTERS,
                         out, sizeof out) > 0 &&
           linkwire_refusal_next(is, sizeof is, &at, &refusal) == 1 && refusal.fault == LINKWIRE_WRONG_LENGTH &&
           refusal.offset == LINKWIRE_HEADER_SIZE && refusal.is_attribute == 1 && refusal.attribute.payload == 20 &&
           refusal.attribute.payload_len == 1 && refusal.path.depth == 1 && refusal.path.numbers[0] == 4 &&
           linkwire_canonical_lenient_len(is, sizeof is) == 24;
}

int main(void) {
    struct linkwire_attribute attribute = {0, 0, 0};
    uint8_t byte = 0;
    size_t at = 0;
    int32_t found = linkwire_next(&byte, 0, &at, &attribute);
    return found != 0 || !writes() || !compares() || linkwire_canonical_form() != LINKWIRE_CANONICAL_FORM ||
           linkwire_state_form() != LINKWIRE_STATE_FORM || linkwire_lenient_form() != LINKWIRE_LENIENT_FORM ||
           LINKWIRE_VERSION[0] == '\0';
}
