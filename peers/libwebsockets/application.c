// A talker over libwebsockets, which doesn't echo: application PORT. It greets, asks whether the other is there, and
// answers each message with another one.
#include "echo.h"

enum stage { GREETS, ASKS, ANSWERS };

struct member {
    struct message message;
    enum stage stage;
};

// Sends a few bytes, and asks to be called again. -1 ends the connection.
static int say(struct lws *wsi, const char *words, enum lws_write_protocol kind)
{
    unsigned char bytes[LWS_PRE + 32];
    size_t length = strlen(words);
    memcpy(bytes + LWS_PRE, words, length);
    if (lws_write(wsi, bytes + LWS_PRE, length, kind) < (int)length) {
        return -1;
    }
    lws_callback_on_writable(wsi);
    return 0;
}

// Sends what is next: the greeting, a ping, or the answer to a message that is whole.
static int on_turn(struct lws *wsi, struct member *member)
{
    switch (member->stage) {
    case GREETS:
        member->stage = ASKS;
        return say(wsi, "welcome", LWS_WRITE_TEXT);
    case ASKS:
        member->stage = ANSWERS;
        return say(wsi, "there?", LWS_WRITE_PING);
    default:
        break;
    }
    if (!member->message.is_whole) {
        lws_rx_flow_control(wsi, 1);
        return 0;
    }
    member->message.length = 0;
    member->message.is_whole = 0;
    return say(wsi, "someone said something", LWS_WRITE_TEXT);
}

static int on_event(struct lws *wsi, enum lws_callback_reasons reason, void *user, void *in, size_t length)
{
    struct member *member = user;
    switch (reason) {
    case LWS_CALLBACK_ESTABLISHED:
        memset(member, 0, sizeof *member);
        lws_callback_on_writable(wsi);
        return 0;
    case LWS_CALLBACK_RECEIVE:
        return on_part(wsi, &member->message, in, length);
    case LWS_CALLBACK_SERVER_WRITEABLE:
        return on_turn(wsi, member);
    case LWS_CALLBACK_CLOSED:
        free(member->message.bytes);
        return 0;
    default:
        return 0;
    }
}

int main(int count, char **words)
{
    const struct lws_protocols protocols[] = {
        {.name = "talk", .callback = on_event, .per_session_data_size = sizeof(struct member)},
        {0},
    };
    const struct lws_context_creation_info info = {
        .port = count > 1 ? atoi(words[1]) : 0,
        .iface = "127.0.0.1",
        .protocols = protocols,
        .options = LWS_SERVER_OPTION_VALIDATE_UTF8 | LWS_SERVER_OPTION_DISABLE_IPV6,
    };
    struct lws_context *context;
    lws_set_log_level(LLL_ERR | LLL_WARN, NULL);
    if (!(context = lws_create_context(&info))) {
        return 1;
    }
    puts("listening");
    fflush(stdout);
    while (lws_service(context, 0) >= 0) {
    }
    lws_context_destroy(context);
    return 0;
}
