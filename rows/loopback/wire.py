"""What goes over the wire, written out by RFC 6455 sections 1.2, 1.3 and 5.2."""

REQUEST = (
    b"GET /chat HTTP/1.1\r\nHost: server.example.com\r\nUpgrade: websocket\r\nConnection: Upgrade\r\n"
    b"Sec-WebSocket-Key: dGhlIHNhbXBsZSBub25jZQ==\r\nSec-WebSocket-Version: 13\r\n\r\n"
)

# The accept value of that key stands in section 1.3.
RESPONSE = (
    b"HTTP/1.1 101 Switching Protocols\r\nUpgrade: websocket\r\nConnection: Upgrade\r\n"
    b"Sec-WebSocket-Accept: s3pPLMBiTxaQ9kYGzzhZRbK+xOo=\r\n\r\n"
)

BAD_REQUEST = b"HTTP/1.1 400 Bad Request\r\nConnection: close\r\nContent-Length: 0\r\n\r\n"

OTHER_VERSION = (
    b"HTTP/1.1 426 Upgrade Required\r\nUpgrade: websocket\r\nConnection: Upgrade, close\r\n"
    b"Sec-WebSocket-Version: 13\r\nContent-Length: 0\r\n\r\n"
)

# The masked text of section 5.7, and what a server sends back.
HELLO = bytes.fromhex("818537fa213d7f9f4d5158")
HELLO_BACK = b"\x81\x05Hello"

# A close frame with the code 1000 under a key of zeros, and its answer.
CLOSE = bytes.fromhex("88820000000003e8")
CLOSE_BACK = bytes.fromhex("880203e8")

# A text that is not masked, which a server fails with the code 1002.
NOT_MASKED = b"\x81\x05Hello"
FAILED_1002 = bytes.fromhex("880203ea")
FAILED_1007 = bytes.fromhex("880203ef")
FAILED_1009 = bytes.fromhex("880203f1")


def binary(length):
    """A binary message of zeros in one frame, masked under a key of zeros; of at least 65,536 bytes."""
    return b"\x82\xff" + length.to_bytes(8, "big") + bytes(4) + bytes(length)


# The case 1.1.1 under the key 37fa213d: an empty text and a close frame with the code 1000; and the echo of the text.
EMPTY_TEXT = bytes.fromhex("818037fa213d")
MASKED_CLOSE = bytes.fromhex("888237fa213d3412")
EMPTY_BACK = b"\x81\x00"


def request_to(address):
    """The request that a server at this address gets."""
    return REQUEST.replace(b"/chat", b"/").replace(b"server.example.com", address.encode())


def with_line(head, line):
    """A head with one more line before its empty line."""
    return head[:-2] + line + b"\r\n\r\n"


# A request that prefers superchat to chat, and the responses that name one of them (sections 1.3 and 1.9).
OFFERING = with_line(REQUEST, b"Sec-WebSocket-Protocol: superchat, chat")
NAMES_SUPERCHAT = with_line(RESPONSE, b"Sec-WebSocket-Protocol: superchat")
NAMES_CHAT = with_line(RESPONSE, b"Sec-WebSocket-Protocol: chat")
NAMES_SOAP = with_line(RESPONSE, b"Sec-WebSocket-Protocol: soap")
NAMES_BOTH = with_line(RESPONSE, b"Sec-WebSocket-Protocol: superchat, chat")
