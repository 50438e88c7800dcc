/* Carries out a script of `rr script` by the calls of rr.h, and prints the replies as it does (docs/RULES.md, "Lines of an example").
 * The hub is of the sliced family, elements are bytes, and a user header is a number in the first eight bytes, the lowest first. Which
 * request an active request belongs to can't be had, so that `active A` is printed without it. The statuses are those of `rr script`. */
#include "rr.h"
#include <stdio.h>
#include <stdlib.h>
#include <string.h>

enum { MOST_NUMBERS = 4096, MOST_WORDS = 12 };

/* The words of a line, the first is the command's name; and the numbers in them, by place. */
static const char *words[MOST_WORDS];
static uint64_t numbers[MOST_WORDS];
static int word_count;

static rr_hub_t hub;

/* The ids by number, as calls wrote them. */
static rr_id_t ids[MOST_NUMBERS];
static bool is_known[MOST_NUMBERS];

/* Ends the program: the line isn't one of a script's. */
static void bad_line(void) {
    fputs("bad line\n", stderr);
    exit(1);
}

static void keep(rr_id_t id) {
    if (id.number >= MOST_NUMBERS)
        bad_line();
    ids[id.number] = id;
    is_known[id.number] = true;
}

/* Returns an id with this number. Each third one, and each that no call wrote, has a row and an index that are made up. */
static rr_id_t id_of(uint64_t number) {
    static uint64_t calls;
    static const size_t PLACES[] = {0, 1, 2, 7, 1000000, SIZE_MAX};
    calls++;
    if (calls % 3 != 0 && number < MOST_NUMBERS && is_known[number])
        return ids[number];
    rr_id_t made_up = {number, PLACES[calls % 6], PLACES[calls / 6 % 6]};
    return made_up;
}

/* Returns what a code says in a reply. */
static const char *reply_of(uint32_t code) {
    switch (code) {
    case RR_UNKNOWN: return "refused Unknown";
    case RR_WRONG_KIND: return "refused WrongKind";
    case RR_NUMBERS_EXHAUSTED: return "refused NumbersExhausted";
    case RR_INCOMPLETE: return "refused Incomplete";
    case RR_NOTHING: return "none";
    case RR_CLIENT_CREATE_UNABLE_TO_CREATE_DATA_SEGMENT:
    case RR_SERVER_CREATE_UNABLE_TO_CREATE_DATA_SEGMENT: return "UnableToCreateDataSegment";
    case RR_CLIENT_CREATE_EXCEEDS_MAX_SUPPORTED_CLIENTS: return "ExceedsMaxSupportedClients";
    case RR_SERVER_CREATE_EXCEEDS_MAX_SUPPORTED_SERVERS: return "ExceedsMaxSupportedServers";
    case RR_LOAN_OUT_OF_MEMORY: return "OutOfMemory";
    case RR_LOAN_EXCEEDS_MAX_LOANS: return "ExceedsMaxLoans";
    case RR_LOAN_EXCEEDS_MAX_LOAN_SIZE: return "ExceedsMaxLoanSize";
    case RR_SEND_UNABLE_TO_DELIVER: return "UnableToDeliver";
    case RR_SEND_EXCEEDS_MAX_ACTIVE_REQUESTS: return "ExceedsMaxActiveRequests";
    case RR_RECEIVE_EXCEEDS_MAX_BORROWS: return "ExceedsMaxBorrows";
    case RR_HUB_CREATE_ZERO_LIMIT: return "ZeroLimit";
    case RR_HUB_CREATE_LIMITS_TOO_LARGE: return "LimitsTooLarge";
    case RR_HUB_CREATE_OUT_OF_MEMORY: return "OutOfMemory";
    default: return rr_code_name(code);
    }
}

/* Prints the reply of a refused call. `cause` is what stands before an error's name. */
static void refuse(uint32_t code, const char *cause) {
    bool is_error = code >= RR_CLIENT_CREATE_UNABLE_TO_CREATE_DATA_SEGMENT;
    printf("%s%s%s\n", is_error ? "error " : "", is_error ? cause : "", reply_of(code));
}

/* Prints `done`, or why the call was refused. */
static void done_or(uint32_t code) {
    if (code == RR_OK)
        puts("done");
    else
        refuse(code, "");
}

/* Prints a flag, or why the call was refused. */
static void flag_or(uint32_t code, bool flag) {
    if (code == RR_OK)
        puts(flag ? "true" : "false");
    else
        refuse(code, "");
}

/* Prints a name and a number, or why the call was refused. */
static void number_or(uint32_t code, const char *name, uint64_t number) {
    if (code == RR_OK)
        printf("%s %llu\n", name, (unsigned long long)number);
    else
        refuse(code, "");
}

/* Keeps an id that a call wrote and prints it after a name, or why the call was refused. */
static void id_or(uint32_t code, const char *name, const rr_id_t *id) {
    if (code == RR_OK)
        keep(*id);
    number_or(code, name, id->number);
}

/* Returns what the id names, or a kind that there isn't. */
static uint32_t kind_of(const rr_id_t *id) {
    uint32_t kind;
    return rr_kind(&hub, id, &kind) == RR_OK ? kind : UINT32_MAX;
}

static uint32_t strategy_in(const char *word) {
    return strcmp(word, "retry") == 0 ? RR_BACKPRESSURE_RETRY_UNTIL_DELIVERED : RR_BACKPRESSURE_DISCARD_DATA;
}

static uint32_t allocation_in(const char *word) {
    if (strcmp(word, "static") == 0)
        return RR_ALLOCATION_STATIC;
    return strcmp(word, "best") == 0 ? RR_ALLOCATION_BEST_FIT : RR_ALLOCATION_POWER_OF_TWO;
}

static void create_client(void) {
    rr_client_settings_t settings = {numbers[2], numbers[4], strategy_in(words[1]), allocation_in(words[3])};
    rr_id_t client = {0, 0, 0};
    id_or(rr_client_create(&hub, &settings, &client), "created", &client);
}

static void create_server(void) {
    rr_server_settings_t settings = {numbers[2], numbers[4], numbers[5], strategy_in(words[1]), allocation_in(words[3])};
    rr_id_t server = {0, 0, 0};
    id_or(rr_server_create(&hub, &settings, &server), "created", &server);
}

static void loan(rr_id_t *from) {
    rr_id_t message = {0, 0, 0};
    id_or(rr_loan_slice_uninit(&hub, from, numbers[2], &message), "loaned", &message);
}

static void loan_default(rr_id_t *from) {
    rr_id_t message = {0, 0, 0};
    uint32_t code = rr_loan_slice_uninit(&hub, from, numbers[2], &message);
    if (code == RR_OK)
        code = rr_fill(&hub, &message, 0);
    id_or(code, "loaned", &message);
}

/* Prints what became of a request or a response that was to be sent. */
static void say_sent(uint32_t code, const rr_id_t *message, size_t servers, bool is_request) {
    if (code != RR_OK)
        refuse(code, is_request && code == RR_SEND_UNABLE_TO_DELIVER ? "SendError " : "");
    else if (is_request)
        printf("pending %llu %zu\n", (unsigned long long)message->number, servers);
    else
        printf("sent %llu\n", (unsigned long long)message->number);
}

/* Sends a request or a response, and prints what became of it. */
static void send_as(rr_id_t *message, bool is_request) {
    size_t servers = 0;
    uint32_t code = rr_send(&hub, message, &servers);
    say_sent(code, message, servers, is_request);
}

static void send_message(rr_id_t *message) {
    send_as(message, kind_of(message) == RR_KIND_REQUEST_MUT);
}

/* Sends a byte by one call, and prints what became of it. */
static void copy_at_once(rr_id_t *from, bool is_request) {
    uint8_t byte = (uint8_t)numbers[2];
    rr_id_t message = {0, 0, 0};
    size_t servers = 0;
    uint32_t code = rr_send_copy(&hub, from, &byte, 1, &message, &servers);
    bool is_loans = code >= RR_LOAN_OUT_OF_MEMORY && code <= RR_LOAN_EXCEEDS_MAX_LOAN_SIZE;
    if (code == RR_OK)
        keep(message);
    if (code != RR_OK && is_loans)
        refuse(code, is_request ? "SendError LoanError " : "LoanError ");
    else
        say_sent(code, &message, servers, is_request);
}

/* Loans, writes and sends a byte. Each second one goes by one call. */
static void send_copy(rr_id_t *from) {
    static int calls;
    bool is_request = kind_of(from) == RR_KIND_CLIENT;
    uint8_t byte = (uint8_t)numbers[2];
    rr_id_t message;
    if (++calls % 2 == 0) {
        copy_at_once(from, is_request);
        return;
    }
    uint32_t code = rr_loan_slice_uninit(&hub, from, 1, &message);
    if (code == RR_OK) {
        keep(message);
        code = rr_write_from_slice(&hub, &message, &byte, 1);
    }
    if (code != RR_OK)
        refuse(code, is_request ? "SendError LoanError " : "LoanError ");
    else
        send_as(&message, is_request);
}

static void receive(rr_id_t *from) {
    rr_id_t received = {0, 0, 0};
    const char *name = kind_of(from) == RR_KIND_SERVER ? "active" : "response";
    id_or(rr_receive(&hub, from, &received), name, &received);
}

static void push(rr_id_t *message) {
    bool had_room = false;
    uint32_t code = rr_push(&hub, message, (uint8_t)numbers[2], &had_room);
    flag_or(code, had_room);
}

/* Replaces a byte. In a message that can be sent, each second one is written in place. */
static void set(rr_id_t *message) {
    static int calls;
    uint32_t code, kind = kind_of(message);
    bool was_there = false;
    calls++;
    if (calls % 2 == 0 && (kind == RR_KIND_REQUEST_MUT || kind == RR_KIND_RESPONSE_MUT)) {
        uint8_t *bytes;
        size_t len;
        code = rr_payload_mut(&hub, message, &bytes, &len);
        was_there = code == RR_OK && numbers[2] < len;
        if (was_there)
            bytes[numbers[2]] = (uint8_t)numbers[3];
    } else {
        code = rr_set(&hub, message, numbers[2], (uint8_t)numbers[3], &was_there);
    }
    flag_or(code, was_there);
}

static void set_user_header(rr_id_t *message) {
    rr_user_header_t header;
    memset(&header, 0, sizeof header);
    for (int at = 0; at < 8; at++)
        header.bytes[at] = (uint8_t)(numbers[2] >> (8 * at));
    done_or(rr_set_user_header(&hub, message, &header));
}

static void user_header(rr_id_t *message) {
    rr_user_header_t header;
    uint64_t number = 0;
    uint32_t code = rr_user_header(&hub, message, &header);
    for (int at = 0; code == RR_OK && at < 8; at++) {
        number |= (uint64_t)header.bytes[at] << (8 * at);
        if (header.bytes[8 + at] != 0)
            puts("the end of a user header is not 0");
    }
    number_or(code, "user", number);
}

static void header(rr_id_t *message) {
    rr_header_t header;
    uint32_t code = rr_header(&hub, message, &header);
    if (code != RR_OK) {
        refuse(code, "");
        return;
    }
    printf("%s %llu %llu %llu %llu\n", header.is_response ? "response-header" : "request-header", (unsigned long long)header.port_id,
           (unsigned long long)header.request_id, (unsigned long long)header.number_of_elements, (unsigned long long)header.node_id);
}

static void payload(rr_id_t *message) {
    const uint8_t *bytes;
    size_t len;
    uint32_t code = rr_payload(&hub, message, &bytes, &len);
    if (code != RR_OK) {
        refuse(code, "");
        return;
    }
    printf("data");
    for (size_t at = 0; at < len; at++)
        printf(" %d", bytes[at]);
    puts("");
}

static void assume_init(rr_id_t *message) {
    done_or(rr_assume_init(&hub, message));
}

static void is_deliverable(rr_id_t *message) {
    bool flag = false;
    uint32_t code = rr_is_deliverable(&hub, message, &flag);
    flag_or(code, flag);
}

static void has_entries(rr_id_t *from) {
    bool flag = false;
    uint32_t code = rr_has_entries(&hub, from, &flag);
    flag_or(code, flag);
}

static void is_connected(rr_id_t *handle) {
    bool flag = false;
    uint32_t code = rr_is_connected(&hub, handle, &flag);
    flag_or(code, flag);
}

static void set_hint(rr_id_t *pending) {
    done_or(rr_set_disconnect_hint(&hub, pending));
}

static void has_hint(rr_id_t *active) {
    bool flag = false;
    uint32_t code = rr_has_disconnect_hint(&hub, active, &flag);
    flag_or(code, flag);
}

static void servers(rr_id_t *pending) {
    size_t count = 0;
    uint32_t code = rr_number_of_server_connections(&hub, pending, &count);
    number_or(code, "count", count);
}

static void origin(rr_id_t *message) {
    uint64_t port = 0;
    uint32_t code = rr_origin(&hub, message, &port);
    number_or(code, "id", port);
}

static void strategy(rr_id_t *port) {
    uint32_t strategy;
    uint32_t code = rr_backpressure_strategy(&hub, port, &strategy);
    if (code != RR_OK)
        refuse(code, "");
    else
        puts(strategy == RR_BACKPRESSURE_RETRY_UNTIL_DELIVERED ? "retry" : strategy == RR_BACKPRESSURE_DISCARD_DATA ? "discard" : "?");
}

static void max_slice_len(rr_id_t *port) {
    size_t len = 0;
    uint32_t code = rr_initial_max_slice_len(&hub, port, &len);
    number_or(code, "count", len);
}

static void update(rr_id_t *port) {
    done_or(rr_update_connections(&hub, port));
}

static void release(rr_id_t *id) {
    done_or(rr_release(&hub, id));
}

/* The commands on a port or a handle, by name. */
static const struct {
    const char *name;
    int words;
    void (*act)(rr_id_t *id);
} CALLS[] = {
    {"loan", 3, loan},          {"default", 3, loan_default},     {"copy", 3, send_copy},   {"push", 3, push},
    {"set", 4, set},            {"uset", 3, set_user_header},     {"init", 2, assume_init}, {"ready", 2, is_deliverable},
    {"send", 2, send_message},  {"recv", 2, receive},             {"has", 2, has_entries},  {"conn", 2, is_connected},
    {"hint", 2, set_hint},      {"hinted", 2, has_hint},          {"count", 2, servers},    {"head", 2, header},
    {"user", 2, user_header},   {"data", 2, payload},             {"origin", 2, origin},    {"strategy", 2, strategy},
    {"maxlen", 2, max_slice_len}, {"update", 2, update},          {"drop", 2, release},
};

/* Makes the hub of the first line. Ends the program with status 4 if it is refused. */
static void create_hub(void) {
    const char *flags = words[8];
    rr_limits_t limits = {numbers[2],          numbers[3],          numbers[4], numbers[5], numbers[6], numbers[7], numbers[9], numbers[10],
                          strchr(flags, 'q') != NULL, strchr(flags, 'p') != NULL, strchr(flags, 'f') != NULL};
    uint32_t code = rr_hub_create(&limits, 0, &hub.at);
    done_or(code);
    if (code != RR_OK)
        exit(4);
}

static void carry_out(void) {
    if (strcmp(words[0], "client") == 0 && word_count == 5) {
        create_client();
        return;
    }
    if (strcmp(words[0], "server") == 0 && word_count == 6) {
        create_server();
        return;
    }
    for (size_t at = 0; at < sizeof CALLS / sizeof *CALLS; at++) {
        if (strcmp(words[0], CALLS[at].name) == 0 && word_count == CALLS[at].words) {
            rr_id_t id = id_of(numbers[1]);
            CALLS[at].act(&id);
            return;
        }
    }
    bad_line();
}

/* Reads the next line into words and numbers. Returns whether there was one. */
static bool read_line(void) {
    static char line[1024];
    if (fgets(line, sizeof line, stdin) == NULL)
        return false;
    word_count = 0;
    for (char *word = strtok(line, " \n"); word != NULL; word = strtok(NULL, " \n")) {
        if (word_count == MOST_WORDS)
            bad_line();
        numbers[word_count] = strtoull(word, NULL, 10);
        words[word_count++] = word;
    }
    return true;
}

int main(void) {
    if (!read_line() || word_count != 11 || strcmp(words[0], "hub") != 0 || strcmp(words[1], "sliced") != 0)
        bad_line();
    create_hub();
    while (read_line()) {
        if (word_count > 0)
            carry_out();
    }
    rr_hub_drop(hub);
    return 0;
}
