/* Lines of SDP: a format that is read, of which one parameter is set and dropped; and lines of what goes beside video.
 *
 * A byte of settings, the line and a value, each behind its length in two bytes, and a byte that says which parameter
 * (rust/emupedestal/fuzz/src/texts.rs and sdp.rs). */
#include "fuzz.h"
#include <string.h>

int LLVMFuzzerTestOneInput(const uint8_t *at, size_t len);

/* A name is no longer than this. */
enum { NAME_MOST = 40 };

/* A text that is written, in as much room as it takes. */
struct text {
    uint8_t at[3 * LONGEST];
    size_t len;
};

static bool is_same(const struct text *a, const struct text *b)
{
    return a->len == b->len && memcmp(a->at, b->at, a->len) == 0;
}

static void write_format(const h26x_sdp *it, struct text *to)
{
    size_t len = 0;
    const uint32_t code = h26x_sdp_write(it, NULL, 0, &len);
    expect(len <= sizeof to->at && code == (len == 0 ? H26X_OK : H26X_NO_ROOM));
    uint8_t *room = room_for(OUTPUT, len);
    expect(h26x_sdp_write(it, room, len, &to->len) == H26X_OK && to->len == len);
    memcpy(to->at, room, len);
}

/* What is written is read as the same, and written so again. */
static void check_again(uint32_t codec, const struct text *written)
{
    static struct text again;
    h26x_sdp it = {NULL};
    const struct input bytes = {written->at, written->len};
    expect(h26x_sdp_read(codec, copied(OTHER, bytes), bytes.len, &it, NULL) == H26X_OK);
    write_format(&it, &again);
    expect(is_same(written, &again));
    h26x_sdp_free(it);
}

static bool is_space(uint8_t byte)
{
    return byte == ' ' || byte == '\t' || byte == '\n' || byte == '\f' || byte == '\r';
}

static struct input trimmed(struct input it)
{
    for (; it.len > 0 && is_space(it.at[0]); it.at++)
        it.len--;
    while (it.len > 0 && is_space(it.at[it.len - 1]))
        it.len--;
    return it;
}

/* Whether a text is one value: no `;` outside braces, none of which is open at the end. */
static bool is_one_value(struct input it)
{
    bool is_open = false;
    for (size_t i = 0; i < it.len; i++) {
        if (it.at[i] == ';' && !is_open)
            return false;
        is_open = it.at[i] == '{' || (is_open && it.at[i] != '}');
    }
    return !is_open;
}

/* Sets the parameter at a place, and drops it: what is refused changes nothing. */
static void change(h26x_sdp *it, uint32_t codec, const struct text *before, struct input value, uint8_t which)
{
    static struct text after;
    uint8_t name[NAME_MOST];
    size_t name_len = 0, len = 0;
    if (h26x_sdp_name(it, which, name, sizeof name, &name_len) == H26X_SDP_ABSENT)
        return;
    const uint8_t *given = copied(PACKET, value);
    const uint32_t code = h26x_sdp_set(it, name, name_len, given, value.len);
    saw(1, code, which, codec);
    write_format(it, &after);
    expect((code == H26X_SDP_NOT_A_VALUE) == !is_one_value(trimmed(value)));
    if (code != H26X_OK) {
        expect(code == H26X_SDP_NOT_A_VALUE || (H26X_SDP_NOT_A_NUMBER <= code && code <= H26X_SDP_NOT_TX_MODE));
        expect(is_same(before, &after));
    } else {
        const struct input wanted = trimmed(value);
        uint8_t *to = room_for(OUTPUT, wanted.len);
        expect(h26x_sdp_value(it, name, name_len, false, to, wanted.len, &len) == H26X_OK && len == wanted.len);
        expect(len == 0 || memcmp(to, wanted.at, len) == 0);
        check_again(codec, &after);
    }
    expect(h26x_sdp_unset(it, name, name_len) == H26X_OK);
    expect(h26x_sdp_value(it, name, name_len, false, NULL, 0, &len) == H26X_SDP_ABSENT);
    write_format(it, &after);
    check_again(codec, &after);
    for (uint32_t options = 0; options < 4; options++) {
        saw(2, h26x_sdp_broken_rule(it, options, NULL), options, codec);
        expect(h26x_sdp_agreed(it, it, options, NULL, NULL) == H26X_OK);
    }
}

/* Lines of what goes beside video: what is read is written, and that read as the same. */
static void check_repair(struct input line)
{
    const uint8_t *text = copied(PACKET, line);
    uint8_t payload_type = 99, again_type = 99, to[64];
    uint32_t format = 0, again_format = 0;
    size_t len = 0;
    h26x_rtx_format rtx, again;
    uint32_t code = h26x_repairmap_read(text, line.len, &payload_type, &format);
    saw(3, code, format, about(payload_type));
    if (code == H26X_OK) {
        expect(h26x_repairmap_write(payload_type, format, to, sizeof to, &len) == H26X_OK);
        expect(h26x_repairmap_read(to, len, &again_type, &again_format) == H26X_OK);
        expect(again_type == payload_type && again_format == format && payload_type < 128);
    }
    code = h26x_rtx_format_read(text, line.len, &rtx, NULL);
    saw(4, code, code == H26X_OK && rtx.has_rtx_time, 0);
    if (code == H26X_OK) {
        expect(h26x_rtx_format_write(&rtx, to, sizeof to, &len) == H26X_OK);
        expect(h26x_rtx_format_read(to, len, &again, NULL) == H26X_OK && again.payload_type == rtx.payload_type);
        expect(again.has_rtx_time == rtx.has_rtx_time && again.rtx_time == rtx.rtx_time && rtx.payload_type < 128);
    }
}

int LLVMFuzzerTestOneInput(const uint8_t *at, size_t len)
{
    static struct text written;
    struct input in = {at, len < LONGEST ? len : LONGEST};
    const uint32_t codec = take_settings(&in).codec;
    const struct input line = take_bytes(&in), value = take_bytes(&in);
    const uint8_t which = take_byte(&in);
    h26x_sdp it = {NULL};
    h26x_refusal why = {0, 0};
    const uint32_t code = h26x_sdp_read(codec, copied(PACKET, line), line.len, &it, &why);
    saw(0, code, about(why.first), codec);
    expect((code == H26X_OK) == (it.at != NULL));
    if (code == H26X_OK) {
        write_format(&it, &written);
        check_again(codec, &written);
        change(&it, codec, &written, value, which);
    }
    h26x_sdp_free(it);
    check_repair(line);
    return 0;
}
