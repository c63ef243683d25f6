/*
 * One line for each struct of arinduleu.h: its name, its size, its alignment, then each field with its offset. As unsigned, since not every C
 * library for boards prints a size_t.
 */
#include <stdio.h>

#include "arinduleu.h"

#define STRUCT(name) printf("%s %u %u", #name, (unsigned)sizeof(struct name), (unsigned)_Alignof(struct name))
#define FIELD(name, field) printf(" %s %u", #field, (unsigned)offsetof(struct name, field))
#define END() printf("\n")

int main(void)
{
    STRUCT(arin_verdict);
    FIELD(arin_verdict, number);
    FIELD(arin_verdict, place);
    END();

    STRUCT(arin_profile);
    FIELD(arin_profile, max);
    FIELD(arin_profile, present);
    FIELD(arin_profile, cable);
    FIELD(arin_profile, rounding);
    FIELD(arin_profile, pps);
    FIELD(arin_profile, flags);
    END();

    STRUCT(arin_profiled);
    FIELD(arin_profiled, verdict);
    FIELD(arin_profiled, profile);
    END();

    STRUCT(arin_words);
    FIELD(arin_words, words);
    FIELD(arin_words, count);
    END();

    STRUCT(arin_listing);
    FIELD(arin_listing, verdict);
    FIELD(arin_listing, list);
    END();

    STRUCT(arin_flat_object);
    FIELD(arin_flat_object, kind);
    FIELD(arin_flat_object, flags);
    FIELD(arin_flat_object, peak);
    FIELD(arin_flat_object, limited);
    FIELD(arin_flat_object, volts);
    FIELD(arin_flat_object, max);
    FIELD(arin_flat_object, min);
    FIELD(arin_flat_object, power);
    FIELD(arin_flat_object, current);
    FIELD(arin_flat_object, max100);
    FIELD(arin_flat_object, min100);
    FIELD(arin_flat_object, current50);
    FIELD(arin_flat_object, low);
    FIELD(arin_flat_object, high);
    END();

    STRUCT(arin_flat_objects);
    FIELD(arin_flat_objects, places);
    FIELD(arin_flat_objects, count);
    END();

    STRUCT(arin_flat_reading);
    FIELD(arin_flat_reading, verdict);
    FIELD(arin_flat_reading, list);
    END();

    STRUCT(arin_summary);
    FIELD(arin_summary, count);
    FIELD(arin_summary, rows);
    END();

    STRUCT(arin_summarized);
    FIELD(arin_summarized, verdict);
    FIELD(arin_summarized, summary);
    END();

    STRUCT(arin_flat_request);
    FIELD(arin_flat_request, kind);
    FIELD(arin_flat_request, position);
    FIELD(arin_flat_request, mismatch);
    FIELD(arin_flat_request, operating);
    FIELD(arin_flat_request, maximum);
    FIELD(arin_flat_request, volts20);
    FIELD(arin_flat_request, volts25);
    FIELD(arin_flat_request, current50);
    END();

    STRUCT(arin_flat_taken);
    FIELD(arin_flat_taken, verdict);
    FIELD(arin_flat_taken, request);
    END();

    STRUCT(arin_header);
    FIELD(arin_header, extended);
    FIELD(arin_header, count);
    FIELD(arin_header, id);
    FIELD(arin_header, power_role);
    FIELD(arin_header, revision);
    FIELD(arin_header, data_role);
    FIELD(arin_header, message_type);
    END();

    STRUCT(arin_message);
    FIELD(arin_message, header);
    FIELD(arin_message, words);
    END();

    STRUCT(arin_message_reading);
    FIELD(arin_message_reading, verdict);
    FIELD(arin_message_reading, message);
    END();

    STRUCT(arin_written);
    FIELD(arin_written, verdict);
    FIELD(arin_written, length);
    END();

    STRUCT(arin_row);
    FIELD(arin_row, max);
    FIELD(arin_row, pps);
    FIELD(arin_row, cable);
    FIELD(arin_row, present);
    FIELD(arin_row, held);
    END();

    STRUCT(arin_remaining_power);
    FIELD(arin_remaining_power, verdict);
    FIELD(arin_remaining_power, power);
    END();
    return 0;
}
