// An echo server over libwebsockets: server PORT.
#include "echo.h"

static int on_event(struct lws *wsi, enum lws_callback_reasons reason, void *user, void *in, size_t length)
{
    struct message *message = user;
    switch (reason) {
    case LWS_CALLBACK_ESTABLISHED:
        memset(message, 0, sizeof *message);
        return 0;
    case LWS_CALLBACK_RECEIVE:
        return on_part(wsi, message, in, length);
    case LWS_CALLBACK_SERVER_WRITEABLE:
        return on_writable(wsi, message);
    case LWS_CALLBACK_CLOSED:
        free(message->bytes);
        return 0;
    default:
        return 0;
    }
}

int main(int count, char **words)
{
    const struct lws_protocols protocols[] = {
        {.name = "echo", .callback = on_event, .per_session_data_size = sizeof(struct message)},
        {0},
    };
    const struct lws_context_creation_info info = {
        .port = count > 1 ? atoi(words[1]) : 0,
        .iface = "127.0.0.1",
        .protocols = protocols,
        .options = LWS_SERVER_OPTION_VALIDATE_UTF8 | LWS_SERVER_OPTION_DISABLE_IPV6,
    };
    struct lws_context *context;
    lws_set_log_level(LLL_ERR | LLL_WARN, NULL);
    if (!(context = lws_create_context(&info))) {
        return 1;
    }
    puts("listening");
    fflush(stdout);
    while (lws_service(context, 0) >= 0) {
    }
    lws_context_destroy(context);
    return 0;
}
