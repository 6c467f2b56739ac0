// A message that is put together and sent back whole: what the server and the client share.
#include <libwebsockets.h>
#include <stdio.h>
#include <stdlib.h>
#include <string.h>

#define LIMIT (16 * 1024 * 1024) // bytes of a message

struct message {
    unsigned char *bytes; // LWS_PRE bytes for the library, then those of the message
    size_t length;
    int is_whole, is_binary;
};

// Takes a part of a message. Once it is whole no more is read until it has been sent. -1 ends the connection.
static inline int on_part(struct lws *wsi, struct message *message, const void *part, size_t length)
{
    unsigned char *bytes;
    if (message->length + length > LIMIT) {
        lws_close_reason(wsi, LWS_CLOSE_STATUS_MESSAGE_TOO_LARGE, NULL, 0);
        return -1;
    }
    if (!(bytes = realloc(message->bytes, LWS_PRE + message->length + length))) {
        return -1;
    }
    message->bytes = bytes;
    memcpy(bytes + LWS_PRE + message->length, part, length);
    message->length += length;
    message->is_binary = lws_frame_is_binary(wsi);
    if (lws_is_final_fragment(wsi)) {
        message->is_whole = 1;
        lws_rx_flow_control(wsi, 0);
        lws_callback_on_writable(wsi);
    }
    return 0;
}

// Sends the message back, where there is a whole one. The library calls again once it has sent all of it: then more is
// read. -1 ends the connection.
static inline int on_writable(struct lws *wsi, struct message *message)
{
    enum lws_write_protocol kind = message->is_binary ? LWS_WRITE_BINARY : LWS_WRITE_TEXT;
    if (!message->is_whole) {
        lws_rx_flow_control(wsi, 1);
        return 0;
    }
    if (lws_write(wsi, message->bytes + LWS_PRE, message->length, kind) < (int)message->length) {
        return -1;
    }
    message->length = 0;
    message->is_whole = 0;
    lws_callback_on_writable(wsi);
    return 0;
}
