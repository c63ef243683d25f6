//! The names of the refusal numbers, of the flat kinds, of the limits in a row and of the types of messages. No call gives 9 and a call's
//! answer shows a number and no name, so this is the only place where a wrong name would be seen.

use arinduleu::flat::*;
use arinduleu::messages::*;
use arinduleu::summaries::*;
use arinduleu::verdicts::*;

#[test]
fn names_have_the_numbers_of_the_statement() {
    assert_eq!(
        [
            SUCCESS,
            PORT_MAXIMUM,
            PRESENT_POWER,
            CABLE,
            NOT_A_CHOICE,
            FLAGS,
            PPS_BELOW_MAXIMUM,
            FIELD_TOO_WIDE,
        ],
        [0, 1, 2, 3, 4, 5, 6, 7]
    );
    assert_eq!(RECORD_SHORT, 9);
    assert_eq!(
        [
            COUNT,
            FIRST_NOT_FIXED_5_V,
            KIND_NOT_ALLOWED,
            RESERVED_BIT,
            ORDER,
            VOLTAGE_BOUND,
            POWER_OVER_100_W,
            AVS_DIFFERS,
            WRONG_SET,
            CURRENT_NOT_ALLOWED,
        ],
        [10, 11, 12, 13, 14, 15, 16, 17, 18, 19]
    );
    assert_eq!(
        [
            POSITION,
            VOLTAGE_OUTSIDE,
            AVS_VOLTAGE_NOT_WHOLE,
            OPERATING_TOO_LARGE,
            MAXIMUM_TOO_LARGE,
        ],
        [20, 22, 23, 24, 25]
    );
    assert_eq!(
        [
            ROW_COUNT,
            SET_UP_MAXIMUM,
            CAPACITY,
            NO_SUCH_PORT,
            PORT_IN_USE,
            PORT_NOT_ATTACHED,
            NO_POWER_NOW,
            ROWS_NOT_SOUND,
        ],
        [30, 31, 32, 33, 34, 35, 36, 37]
    );
    assert_eq!(
        [
            MESSAGE_LENGTH,
            TYPE_NOT_HANDLED,
            EXTENDED_MESSAGE,
            ABOVE_CEILING,
        ],
        [40, 41, 42, 43]
    );
    assert_eq!(
        [HEADER_FIELD_TOO_WIDE, BUFFER_TOO_SHORT, REQUEST_COUNT],
        [51, 52, 53]
    );
}

#[test]
fn flat_kinds_have_the_order_of_the_statement() {
    assert_eq!(
        [KIND_FIXED, KIND_BATTERY, KIND_VARIABLE, KIND_PPS, KIND_AVS],
        [0, 1, 2, 3, 4]
    );
}

#[test]
fn limits_have_the_order_of_the_statement() {
    assert_eq!([LOWEST, HIGHEST, BELOW_15_V, ABOVE_15_V], [0, 1, 2, 3]);
}

#[test]
fn messages_are_as_the_statement_has_them() {
    assert_eq!([SOURCE_CAPABILITIES, REQUEST], [1, 2]);
    assert_eq!(LONGEST_MESSAGE, 30);
}
