// A test client over libwebsockets: client ws://HOST:PORT.
#include "echo.h"

static struct message message; // of the connection that is under way
static int is_echo, has_ended;
static int case_count;

static int on_event(struct lws *wsi, enum lws_callback_reasons reason, void *user, void *in, size_t length)
{
    char digits[16] = "";
    (void)user;
    switch (reason) {
    case LWS_CALLBACK_CLIENT_RECEIVE:
        if (is_echo) {
            return on_part(wsi, &message, in, length);
        }
        memcpy(digits, in, length < sizeof digits ? length : sizeof digits - 1);
        case_count = atoi(digits);
        return 0;
    case LWS_CALLBACK_CLIENT_WRITEABLE:
        return on_writable(wsi, &message);
    case LWS_CALLBACK_CLIENT_CONNECTION_ERROR:
    case LWS_CALLBACK_CLIENT_CLOSED:
        has_ended = 1;
        return 0;
    default:
        return 0;
    }
}

static void run(struct lws_context *context, const char *host, int port, const char *path)
{
    const struct lws_client_connect_info info = {
        .context = context, .address = host, .port = port, .path = path, .host = host, .local_protocol_name = "echo"};
    message.length = 0;
    message.is_whole = 0;
    has_ended = 0;
    lws_client_connect_via_info(&info);
    while (!has_ended && lws_service(context, 0) >= 0) {
    }
}

int main(int count, char **words)
{
    const struct lws_protocols protocols[] = {{.name = "echo", .callback = on_event}, {0}};
    const struct lws_context_creation_info info = {
        .port = CONTEXT_PORT_NO_LISTEN, .protocols = protocols, .options = LWS_SERVER_OPTION_VALIDATE_UTF8};
    struct lws_context *context;
    const char *scheme, *host, *rest;
    char path[64];
    int port;
    lws_set_log_level(LLL_ERR | LLL_WARN, NULL);
    if (count < 2 || lws_parse_uri(words[1], &scheme, &host, &port, &rest) || !(context = lws_create_context(&info))) {
        return 1;
    }
    run(context, host, port, "/getCaseCount");
    is_echo = 1;
    for (int number = 1; number <= case_count; number++) {
        snprintf(path, sizeof path, "/runCase?case=%d", number);
        run(context, host, port, path);
    }
    run(context, host, port, "/updateReports");
    lws_context_destroy(context);
    free(message.bytes);
    return 0;
}
