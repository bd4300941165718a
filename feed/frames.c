#include "frames.h"

#include <string.h>

uint64_t read_number(const uint8_t *bytes, size_t count) {
    uint64_t number = 0;
    for (size_t i = 0; i < count; i++) number = number << 8 | bytes[i];
    return number;
}

void write_number(uint8_t *bytes, size_t count, uint64_t number) {
    for (size_t i = count; i > 0; i--) {
        bytes[i - 1] = (uint8_t)number;
        number >>= 8;
    }
}

uint32_t body_epoch(const uint8_t *body) { return (uint32_t)read_number(body, 4); }

uint8_t body_round(const uint8_t *body) { return body[4]; }

bool frame_last(const uint8_t *bytes, size_t len, struct frame *frame) {
    if (len < WEDERBURH_TRAILER) return false;
    const uint8_t *trailer = bytes + len - WEDERBURH_TRAILER;
    size_t body = (size_t)read_number(trailer + 4, 4);
    if (body > len - WEDERBURH_TRAILER) return false;
    *frame = (struct frame){trailer[0], trailer[1], trailer - body, body};
    return true;
}

/* How many entries a list may have here. A longer one is RANGE to the node, whatever the bits are. */
static bool listed(uint8_t count) { return count >= 1 && count <= WEDERBURH_MEMBERS; }

/* s of a FINAL body, which stands behind its list; 0 where the body does not reach so far. */
static uint8_t signers(const struct frame *frame) {
    if (frame->len < 7 || !listed(frame->body[5])) return 0;
    size_t at = 6 + 9 * (size_t)frame->body[5];
    return at < frame->len ? frame->body[at] : 0;
}

size_t frame_signatures(const struct frame *frame) {
    size_t m = frame->len > 5 ? frame->body[5] : 0, s = signers(frame);
    switch (frame->kind) {
    case WEDERBURH_OBSERVE: return frame->len == 77 ? 1 : 0;
    case WEDERBURH_REPORT_REQ: return listed((uint8_t)m) && frame->len == 6 + 73 * m ? m : 0;
    case WEDERBURH_REPORT: return listed((uint8_t)m) && frame->len == 70 + 9 * m ? 1 : 0;
    case WEDERBURH_FINAL:
    case WEDERBURH_FINAL_ECHO: return listed((uint8_t)s) && frame->len == 7 + 9 * m + 65 * s ? s : 0;
    default: return 0;
    }
}

/* What OBSERVE's signature covers is no list's content: 21 bytes are not 14 + 9m for any m. */
static void add(struct covered *covered, const uint8_t *bytes, size_t len) {
    memcpy(covered->content + covered->len, bytes, len);
    covered->len += len;
}

void frame_covered(const struct frame *frame, uint64_t configuration, size_t i, struct covered *covered) {
    const uint8_t *body = frame->body;
    write_number(covered->content, 8, configuration);
    covered->len = 8;
    covered->member = frame->sender;
    size_t list = 6 + 9 * (size_t)body[5], entry = 6 + 73 * i;
    switch (frame->kind) {
    case WEDERBURH_OBSERVE: /* epoch, round, value */
        add(covered, body, 13);
        covered->at = 13;
        break;
    case WEDERBURH_REPORT_REQ: /* epoch, round, and the value of the entry */
        add(covered, body, 5);
        add(covered, body + entry + 1, 8);
        covered->member = body[entry];
        covered->at = entry + 9;
        break;
    case WEDERBURH_REPORT: /* epoch, round and the whole list */
        add(covered, body, list);
        covered->at = list;
        break;
    default:
        add(covered, body, list);
        covered->member = body[list + 1 + 65 * i];
        covered->at = list + 2 + 65 * i;
    }
}

const char *kind_name(uint8_t kind) {
    static const char *const NAMES[] = {"", "NEWEPOCH", "OBSERVE-REQ", "OBSERVE", "REPORT-REQ", "REPORT", "FINAL", "FINAL-ECHO"};
    return kind <= WEDERBURH_FINAL_ECHO ? NAMES[kind] : "";
}
