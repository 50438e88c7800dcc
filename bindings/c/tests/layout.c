/* Prints how rr.h lays its structs out, as a C or C++ compiler reads it, and the values of its constants. A line is a type with its size
 * and its alignment, a field with its offset and its size, a constant with its value, or a function of defaults with all that it sets. */
#include "rr.h"
#include <stdalign.h>
#include <stdio.h>

#define TYPE(type) printf("%s %zu %zu\n", #type, sizeof(type), (size_t)alignof(type))
#define FIELD(type, field) printf("%s.%s %zu %zu\n", #type, #field, offsetof(type, field), sizeof(((type *)0)->field))
#define CONSTANT(name) printf("%s %d\n", #name, (int)(name))

/* Names a code as rr.h does. */
#define CODE(name) printf("%s %d\n", rr_code_name(name), (int)(name))

static void print_small_types(void) {
    TYPE(rr_hub_t);
    FIELD(rr_hub_t, at);
    TYPE(rr_id_t);
    FIELD(rr_id_t, number);
    FIELD(rr_id_t, row);
    FIELD(rr_id_t, index);
    TYPE(rr_header_t);
    FIELD(rr_header_t, port_id);
    FIELD(rr_header_t, request_id);
    FIELD(rr_header_t, number_of_elements);
    FIELD(rr_header_t, node_id);
    FIELD(rr_header_t, is_response);
    TYPE(rr_user_header_t);
    FIELD(rr_user_header_t, bytes);
}

static void print_limits(void) {
    TYPE(rr_limits_t);
    FIELD(rr_limits_t, max_clients);
    FIELD(rr_limits_t, max_servers);
    FIELD(rr_limits_t, max_loaned_requests);
    FIELD(rr_limits_t, max_active_requests_per_client);
    FIELD(rr_limits_t, max_response_buffer_size);
    FIELD(rr_limits_t, max_borrowed_responses_per_pending_response);
    FIELD(rr_limits_t, client_expired_connection_buffer);
    FIELD(rr_limits_t, server_expired_connection_buffer);
    FIELD(rr_limits_t, enable_safe_overflow_for_requests);
    FIELD(rr_limits_t, enable_safe_overflow_for_responses);
    FIELD(rr_limits_t, enable_fire_and_forget_requests);
}

static void print_settings(void) {
    TYPE(rr_client_settings_t);
    FIELD(rr_client_settings_t, initial_max_slice_len);
    FIELD(rr_client_settings_t, preallocated_requests);
    FIELD(rr_client_settings_t, backpressure_strategy);
    FIELD(rr_client_settings_t, allocation_strategy);
    TYPE(rr_server_settings_t);
    FIELD(rr_server_settings_t, initial_max_slice_len);
    FIELD(rr_server_settings_t, preallocated_responses);
    FIELD(rr_server_settings_t, max_loaned_responses_per_request);
    FIELD(rr_server_settings_t, backpressure_strategy);
    FIELD(rr_server_settings_t, allocation_strategy);
}

static void print_codes(void) {
    CODE(RR_OK);
    CODE(RR_UNKNOWN);
    CODE(RR_WRONG_KIND);
    CODE(RR_NUMBERS_EXHAUSTED);
    CODE(RR_INCOMPLETE);
    CODE(RR_WRONG_LENGTH);
    CODE(RR_NOTHING);
    CODE(RR_INVALID_SETTING);
    CODE(RR_CLIENT_CREATE_UNABLE_TO_CREATE_DATA_SEGMENT);
    CODE(RR_CLIENT_CREATE_EXCEEDS_MAX_SUPPORTED_CLIENTS);
    CODE(RR_CLIENT_CREATE_UNABLE_TO_CREATE_PORT_TAG);
    CODE(RR_SERVER_CREATE_EXCEEDS_MAX_SUPPORTED_SERVERS);
    CODE(RR_SERVER_CREATE_UNABLE_TO_CREATE_DATA_SEGMENT);
    CODE(RR_SERVER_CREATE_UNABLE_TO_CREATE_PORT_TAG);
    CODE(RR_LOAN_OUT_OF_MEMORY);
    CODE(RR_LOAN_EXCEEDS_MAX_LOANS);
    CODE(RR_LOAN_EXCEEDS_MAX_LOAN_SIZE);
    CODE(RR_SEND_UNABLE_TO_DELIVER);
    CODE(RR_SEND_EXCEEDS_MAX_ACTIVE_REQUESTS);
    CODE(RR_RECEIVE_EXCEEDS_MAX_BORROWS);
    CODE(RR_HUB_CREATE_ZERO_LIMIT);
    CODE(RR_HUB_CREATE_LIMITS_TOO_LARGE);
    CODE(RR_HUB_CREATE_OUT_OF_MEMORY);
}

static void print_choices(void) {
    CONSTANT(RR_BACKPRESSURE_RETRY_UNTIL_DELIVERED);
    CONSTANT(RR_BACKPRESSURE_DISCARD_DATA);
    CONSTANT(RR_ALLOCATION_STATIC);
    CONSTANT(RR_ALLOCATION_BEST_FIT);
    CONSTANT(RR_ALLOCATION_POWER_OF_TWO);
    CONSTANT(RR_KIND_CLIENT);
    CONSTANT(RR_KIND_SERVER);
    CONSTANT(RR_KIND_REQUEST_MUT_UNINIT);
    CONSTANT(RR_KIND_REQUEST_MUT);
    CONSTANT(RR_KIND_PENDING_RESPONSE);
    CONSTANT(RR_KIND_ACTIVE_REQUEST);
    CONSTANT(RR_KIND_RESPONSE_MUT_UNINIT);
    CONSTANT(RR_KIND_RESPONSE_MUT);
    CONSTANT(RR_KIND_RESPONSE);
}

static void print_defaults(void) {
    rr_limits_t limits = rr_limits_default();
    rr_client_settings_t client = rr_client_settings_default(5);
    rr_server_settings_t server = rr_server_settings_default(5);
    printf("rr_limits_default %zu %zu %zu %zu %zu %zu", limits.max_clients, limits.max_servers, limits.max_loaned_requests,
           limits.max_active_requests_per_client, limits.max_response_buffer_size, limits.max_borrowed_responses_per_pending_response);
    printf(" %zu %zu", limits.client_expired_connection_buffer, limits.server_expired_connection_buffer);
    printf(" %d %d %d\n", limits.enable_safe_overflow_for_requests, limits.enable_safe_overflow_for_responses,
           limits.enable_fire_and_forget_requests);
    printf("rr_client_settings_default %zu %zu %d %d\n", client.initial_max_slice_len, client.preallocated_requests,
           (int)client.backpressure_strategy, (int)client.allocation_strategy);
    printf("rr_server_settings_default %zu %zu %zu %d %d\n", server.initial_max_slice_len, server.preallocated_responses,
           server.max_loaned_responses_per_request, (int)server.backpressure_strategy, (int)server.allocation_strategy);
}

int main(void) {
    print_small_types();
    print_limits();
    print_settings();
    print_codes();
    print_choices();
    print_defaults();
    return 0;
}
