/*
 * Every call that arinduleu.h marks, with its answer ignored, one a line. A compiler that knows the mark warns once for each; for one
 * that does not, the file has no warning.
 */
#include "arinduleu.h"

void ignore_every_answer(struct arin_profile profile, struct arin_words list, struct arin_flat_objects objects,
                         struct arin_summary summary, struct arin_flat_request request, uint8_t *bytes,
                         struct arin_message message, struct arin_row *rows);

void ignore_every_answer(struct arin_profile profile, struct arin_words list, struct arin_flat_objects objects,
                         struct arin_summary summary, struct arin_flat_request request, uint8_t *bytes,
                         struct arin_message message, struct arin_row *rows)
{
    arin_refusal_text(0);
    arin_default_profile(72);
    arin_build(profile);
    arin_check(profile, list);
    arin_shape(list);
    arin_read(list);
    arin_write(objects);
    arin_answer(list, 0);
    arin_summarize(list);
    arin_take_request(list, 0);
    arin_answer_summary(summary, request);
    arin_sink_shape(list);
    arin_sink_read(list);
    arin_sink_write(objects);
    arin_sink_check(90, list);
    arin_read_message(bytes, 6);
    arin_take_message(bytes, 6);
    arin_write_message(bytes, 6, message);
    arin_set_up(rows, 2, 200);
    arin_attach(rows, 2, 200, 1, 500);
    arin_advertise(rows, 2, 200, 1);
    arin_request(rows, 2, 200, 1, 0);
    arin_detach(rows, 2, 200, 1);
    arin_remaining(rows, 2, 200);
}
