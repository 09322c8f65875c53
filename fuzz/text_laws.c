/* Names and keys. */
#include "laws.h"

#include <string.h>

enum { TEXT_MAX = 200 };

/* Readers, their writers, and readers that must refuse what these write. */
static const struct form {
    enum kind reader, writer, stranger;
    unsigned numbers;
} forms[] = {
    {READ_OBJECT_NAME, WRITE_OBJECT_NAME, READ_FULL_NAME, 3},
    {READ_FULL_NAME, WRITE_FULL_NAME, READ_OBJECT_NAME, 3},
    {READ_REDIS_KEY, WRITE_REDIS_KEY, READ_TKV_KEY, 2},
    {READ_TKV_KEY, WRITE_TKV_KEY, READ_REDIS_KEY, 2},
};

/* What was read is written back, and gives the same text. */
static void read_law(const call *call, const answer *a, const struct form *form)
{
    uint64_t volume = form->writer == WRITE_FULL_NAME ? a->value[3] : 0;
    must(call, a->value[3] == volume && volume <= call->len, "a volume that the text has not");
    struct call writing = other(call, form->writer, call->bytes, volume);
    memcpy(writing.number, a->value, form->numbers * sizeof *a->value);
    answer back = make_ample(&writing);
    must(call, same(&back, call->bytes, call->len), "what was read is written in another way");
    done_with(&back);
}

/* A text that may be of the form or not. */
static void read_some(const call *call, const struct form *form, const uint8_t *text, size_t len)
{
    struct call reading = other(call, form->reader, text, len);
    answer a = make_ample(&reading);
    if (!a.refusal)
        read_law(&reading, &a, form);
    done_with(&a);
}

/* Texts one byte away from a written one: shorter, longer, and with another byte. */
static void read_near(const call *call, const struct form *form, const uint8_t *text, size_t len)
{
    static const uint8_t bytes[] = {0, '\n', ' ', '+', ',', '-', '.', '/', '0', '9', '_', 'c', 255};
    uint8_t near[TEXT_MAX];
    must(call, len > 0 && len < sizeof near, "a text too long for its form");
    memcpy(near, text, len);
    read_some(call, form, near, len - 1);
    for (size_t i = 0; i < sizeof bytes; i++) {
        near[len] = bytes[i];
        read_some(call, form, near, len + 1);
        size_t at = call->salt % len;
        near[at] = bytes[i];
        read_some(call, form, near, len);
        near[at] = text[at];
    }
}

/* What was written is read back; the stranger refuses it. */
static void write_law(const call *call, const answer *a, const struct form *form)
{
    struct call reading = other(call, form->reader, a->written[0], a->value[0]);
    answer back = make_ample(&reading);
    must(call, back.refusal == 0, "what was written is refused in reading");
    for (unsigned i = 0; i < form->numbers; i++)
        must(call, back.value[i] == call->number[i], "another number is read back");
    read_law(&reading, &back, form);
    done_with(&back);

    reading.kind = form->stranger;
    answer refused = make_ample(&reading);
    must(call, refused.refusal == EZK_FORM, "read as a text of another form");
    done_with(&refused);
    read_near(call, form, a->written[0], a->value[0]);
}

void text_law(const call *call, const answer *a)
{
    for (size_t i = 0; i < sizeof forms / sizeof *forms; i++) {
        if (call->kind == forms[i].writer)
            write_law(call, a, &forms[i]);
        if (call->kind == forms[i].reader)
            read_law(call, a, &forms[i]);
    }
}
