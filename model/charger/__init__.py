"""What docs/STATEMENT.md states ("the statement"), as a plain model.

In the order of the statement, and from nothing else: see NOTES.md. Every
function states its sentence of it. All arithmetic is on whole numbers: fields
keep the step of their kind, and two figures of different steps meet only as
millivolts, milliamperes and microwatts (mV times mA), so nothing is lost.

A public call returns Answer(number, place, value); see "Refusal numbers".
"""

# Every name of the model, file by file, in the order of the statement.
from charger.refusals import Answer, Refused, refuse_if, public_call
from charger.measure import (
    MICROWATTS_IN_250_MW, MICROWATTS_IN_HALF_WATT, MICROWATTS_IN_100_W, rounded_down, rounded_up,
)
from charger.object_words import (
    Fixed, Battery, Variable, Pps, Avs, NoKind, PLACES, KIND_BITS, RESERVED, RESERVED_IN_LATER_FIXED, Side, SOURCE,
    bits, kind_in_bits, kind_of, kind_of_object, decode, encode, has_field_too_wide, has_reserved_bit,
)
from charger.lists import (
    PLACES_IN_A_LIST, Words, Objects, NO_OBJECT, in_hand, list_of_words, list_of_objects, NO_WORDS, NO_OBJECTS,
    held_in, refuse_bad_count,
)
from charger.shapes import (
    ORDER_OF_KINDS, is_fixed_at, is_past_voltage_bound, is_over_100_watts, is_out_of_order,
    differs_from_its_fixed_objects, shaped, written, shape, read, write,
)
from charger.rules import (
    Profile, DOWN, UP, RAILS, PROG_MAX, PROG_MIN, THREE_AMPERES_IN_10_MA, THREE_AMPERES_IN_50_MA, is_cable,
    cable_in_whole_50_ma, fixed_voltages, has_avs, has_second_avs_current, prog_voltages, fixed_quotient,
    prog_quotient_down, built_current, built_prog_current, built_objects, refuse_bad_profile, default_profile,
    build,
)
from charger.rule_check import (
    is_wrong_set, is_fixed_current_allowed, is_prog_current_allowed, is_current_allowed, check,
)
from charger.requests import (
    request_position, is_mismatch, operating_figure, maximum_figure, requested_voltage, requested_current,
    judge_figures, judge_pps, avs_limit, judge_avs, granted, answer,
)
from charger.summaries import (
    Limits, Summary, NO_LIMITS, NO_SUMMARY, AskedFigures, AskedVoltage, ForTheList, KINDS_WITH_FIGURES,
    MILLIVOLTS_OF_A_STEP, limits_of, summary_of, limit_at, judge_asked_voltage, judge_asked_figures, make_summary,
    decode_request, answer_from_summary,
)
from charger.sinks import (
    SinkFixed, SinkPps, SINK, NO_SINK_OBJECT, VOLTS_OF_PPS_RANGE, list_of_sink_objects, NO_SINK_OBJECTS, sink_shaped,
    operating_figure_of, ceiling, is_above_ceiling, sink_shape, sink_read, sink_write, sink_check,
)
from charger.messages import (
    Header, Message, HEADER_PLACES, BYTES_IN_A_HEADER, BYTES_IN_A_WORD, SOURCE_CAPABILITIES, REQUEST, NO_MESSAGE,
    number_of_bytes, bytes_of_number, header_of, number_of_header, has_header_field_too_wide, message_length, words_in,
    bytes_of_message, refuse_unhandled, refuse_bad_list, taken_apart, read_message, take_message_apart, write_message,
)
from charger.ports import (
    Row, LEAST_HELD, MOST_CAPACITY, emptied, is_attached, rule_list, all_held, left_for, is_sound, refuse_bad_table,
    refuse_unsound, refuse_bad_port, refuse_empty, advertised, request_power, set_up, attach, advertise, request,
    detach, remaining,
)
from charger.listing_program import RECORD_BYTES, STEPS_IN_100_MA, listing
