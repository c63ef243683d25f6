/*
 * A charger with two USB-C ports of 65 W that share 100 W. The program plays both sides and prints what happens, and the bytes of
 * the lists that go out and of the requests that come in. The comments say what a real charger does at each step with its USB PD
 * stack. The file is C and C++ at once.
 */
#include <stdio.h>

#include "arinduleu.h"

/* Powers are in half watts, and what a cable carries is in 10 mA. */
enum { PORTS = 2, CAPACITY = ARIN_WATTS(100), PORT_MAXIMUM = ARIN_WATTS(65), CABLE_5_A = ARIN_AMPERES(5) };

static struct arin_row rows[PORTS];

/* The next message id of either side of each port, from 0 to 7 and round. A real stack counts Accept and the like too. */
static uint8_t charger_ids[PORTS], sink_ids[PORTS];

static uint8_t take_id(uint8_t *next)
{
    uint8_t id = *next;

    *next = (uint8_t)((id + 1) % 8);
    return id;
}

static void print_refusal(struct arin_verdict v)
{
    printf("refusal %u, place %u: %s\n", v.number, v.place, arin_refusal_text(v.number));
}

static void print_supply(struct arin_flat_object o)
{
    switch (o.kind) {
    case ARIN_KIND_FIXED:
        printf("%.2f V at %.2f A\n", o.volts / 20.0, o.current / 100.0);
        break;
    case ARIN_KIND_AVS:
        printf("AVS, 9 to 15 V at %.2f A", o.low / 100.0);
        if (o.high != 0)
            printf(", 15 to 20 V at %.2f A", o.high / 100.0);
        printf("\n");
        break;
    case ARIN_KIND_PPS:
        printf("PPS, %.1f to %.1f V at %.2f A\n", o.min100 / 10.0, o.max100 / 10.0, o.current50 / 20.0);
        break;
    default:
        /* Battery and variable supplies are never in a list of ours. */
        printf("kind %u\n", o.kind);
    }
}

static void print_bytes(const char *way, const uint8_t *bytes, size_t length)
{
    printf("  %s:", way);
    for (size_t i = 0; i < length; i++)
        printf(" %02X", bytes[i]);
    printf("\n");
}

/* A list as what a charger sends: it is the source, speaks USB PD 3.x, and is the host. */
static struct arin_message capabilities(uint8_t port, struct arin_words list)
{
    struct arin_message message;

    message.header.extended = 0;
    message.header.count = list.count;
    message.header.id = take_id(&charger_ids[port - 1]);
    message.header.power_role = 1;
    message.header.revision = 2;
    message.header.data_role = 1;
    message.header.message_type = ARIN_SOURCE_CAPABILITIES;
    for (int i = 0; i < ARIN_LIST_PLACES; i++)
        message.words[i] = list.words[i];
    return message;
}

/* A real charger hands the bytes to its PD controller, which puts preamble and CRC around them. */
static void send_list(uint8_t port, struct arin_listing listing)
{
    struct arin_flat_reading reading;
    struct arin_written written;
    uint8_t bytes[ARIN_LONGEST_MESSAGE];

    if (listing.verdict.number != ARIN_SUCCESS) {
        print_refusal(listing.verdict);
        return;
    }
    printf("  offered %.1f W\n", rows[port - 1].present / 2.0);
    reading = arin_read(listing.list);
    for (unsigned i = 0; i < reading.list.count; i++) {
        printf("  %u: ", i + 1);
        print_supply(reading.list.places[i]);
    }
    written = arin_write_message(bytes, sizeof bytes, capabilities(port, listing.list));
    if (written.verdict.number != ARIN_SUCCESS)
        print_refusal(written.verdict);
    else
        print_bytes("out", bytes, written.length);
}

static void answer_request(uint8_t port, uint32_t word)
{
    struct arin_verdict v = arin_request(rows, PORTS, CAPACITY, port, word);

    switch (v.number) {
    case ARIN_SUCCESS:
        /* Send Accept, bring the output to the new voltage, send PS_RDY. */
        printf("  accept: it holds %.1f W\n", rows[port - 1].held / 2.0);
        break;
    case ARIN_NO_POWER_NOW:
        /* The list allows it, but the other port took the power since. Send Wait, or Reject where the port has no contract yet:
         * it keeps what it holds. Then send a list of what there is now, so that the sink can choose anew. */
        printf("  wait: it holds %.1f W\n", rows[port - 1].held / 2.0);
        send_list(port, arin_advertise(rows, PORTS, CAPACITY, port));
        break;
    default:
        /* Send Reject: the port keeps what it holds. 20 and 22 to 25 are the sink's fault; any other number is a fault of this program. */
        printf("  reject: ");
        print_refusal(v);
    }
}

/* What came from the sink. A real charger serves some other messages too, and answers the rest with Not_Supported. */
static void receive(uint8_t port, const uint8_t *bytes, size_t length)
{
    struct arin_message_reading reading = arin_read_message(bytes, length);

    print_bytes("in", bytes, length);
    if (reading.verdict.number != ARIN_SUCCESS) {
        printf("  no Request: ");
        print_refusal(reading.verdict);
    } else if (reading.message.header.message_type != ARIN_REQUEST) {
        printf("  no Request: a list\n");
    } else {
        answer_request(port, reading.message.words[0]);
    }
}

/*
 * What the sink sends, byte by byte as it comes to a real charger: a header (one word, sink, USB PD 3.x, device, type 2) and a
 * word (position of a fixed supply, and a current in 10 mA), of each the low byte first.
 */
static void ask(uint8_t port, uint32_t position, uint32_t current)
{
    unsigned header = 0x1082 | (unsigned)take_id(&sink_ids[port - 1]) << 9;
    uint32_t word = (position << 28) | (current << 10) | current;
    uint8_t bytes[] = { (uint8_t)header,      (uint8_t)(header >> 8), (uint8_t)word,
                        (uint8_t)(word >> 8), (uint8_t)(word >> 16),  (uint8_t)(word >> 24) };

    receive(port, bytes, sizeof bytes);
}

/* Get_Source_Cap: a message of type 7 without words. */
static void ask_for_list(uint8_t port)
{
    uint8_t bytes[] = { 0x87, (uint8_t)(take_id(&sink_ids[port - 1]) << 1) };

    receive(port, bytes, sizeof bytes);
}

static void print_remaining(void)
{
    struct arin_remaining_power left = arin_remaining(rows, PORTS, CAPACITY);

    if (left.verdict.number != ARIN_SUCCESS)
        print_refusal(left.verdict);
    else
        printf("free: %.1f W\n", left.power / 2.0);
}

int main(void)
{
    struct arin_verdict v;

    /* Once, at power-on. A refusal here is a wrong constant above, and there is nothing to serve with. No row wants PPS: pps is 0. */
    for (int i = 0; i < PORTS; i++)
        rows[i].max = PORT_MAXIMUM;
    v = arin_set_up(rows, PORTS, CAPACITY);
    if (v.number != ARIN_SUCCESS) {
        print_refusal(v);
        return 1;
    }
    print_remaining();

    printf("port 1: attached\n");
    /* The stack found a sink, and read from the cable's marker that it takes 5 A. An unmarked cable counts as 3 A,
     * and the charger's own lead as what it is made for. */
    send_list(1, arin_attach(rows, PORTS, CAPACITY, 1, CABLE_5_A));
    printf("port 1: asks for 20 V at 3.25 A\n");
    ask(1, 4, 325);
    print_remaining();

    printf("port 2: attached\n");
    /* Its list keeps every voltage; the currents are those of the power that port 1 leaves. */
    send_list(2, arin_attach(rows, PORTS, CAPACITY, 2, CABLE_5_A));

    printf("port 1: asks for 9 V at 2 A\n");
    ask(1, 2, 200);
    print_remaining();

    printf("port 2: advertised again\n");
    /* Power came free. A real charger first sees port 1 down at its new voltage, and then offers the power to port 2. */
    send_list(2, arin_advertise(rows, PORTS, CAPACITY, 2));
    printf("port 2: asks for 20 V at 3.25 A\n");
    ask(2, 4, 325);
    print_remaining();

    printf("port 1: asks for 20 V at 3.25 A\n");
    /* Its list is from before port 2 took the power, so this gets refusal 36. */
    ask(1, 4, 325);
    printf("port 1: asks for 20 V at 3.25 A\n");
    /* The new list has no such current. */
    ask(1, 4, 325);
    printf("port 1: asks for 9 V at 3 A\n");
    ask(1, 2, 300);
    print_remaining();

    printf("port 1: asks for a list\n");
    /* This is no message of ours. A real charger advertises the port again, as port 2 was above. */
    ask_for_list(1);

    printf("port 2: detached\n");
    /* The stack saw the cable go and took the voltage off. Now port 1 could be advertised again, as port 2 was above. */
    v = arin_detach(rows, PORTS, CAPACITY, 2);
    if (v.number != ARIN_SUCCESS)
        print_refusal(v);
    print_remaining();
    return 0;
}
