// An echo of WebSocket messages over Boost.Beast, for `bench/crowd --beast` to measure beside `wst serve`. One thread
// serves all connections, by the library's calls that don't wait.
//
//     beast_crowd ADDRESS
#include <boost/asio/io_context.hpp>
#include <boost/asio/ip/tcp.hpp>
#include <boost/beast/core.hpp>
#include <boost/beast/websocket.hpp>
#include <cstdlib>
#include <iostream>
#include <memory>
#include <string>

namespace asio = boost::asio;
namespace beast = boost::beast;
using boost::asio::ip::tcp;

// One connection. What is under way for it keeps it.
class Guest : public std::enable_shared_from_this<Guest> {
    beast::websocket::stream<tcp::socket> stream;
    beast::flat_buffer buffer;

    void read() {
        stream.async_read(buffer, [self = shared_from_this()](beast::error_code fault, std::size_t) {
            if (!fault) {
                self->write();
            }
        });
    }

    void write() {
        stream.text(stream.got_text());
        stream.async_write(buffer.data(), [self = shared_from_this()](beast::error_code fault, std::size_t) {
            if (!fault) {
                self->buffer.clear();
                self->read();
            }
        });
    }

  public:
    explicit Guest(tcp::socket socket) : stream(std::move(socket)) {
        stream.next_layer().set_option(tcp::no_delay(true));
        // A message is sent as one frame, as it came.
        stream.auto_fragment(false);
    }

    void serve() {
        stream.async_accept([self = shared_from_this()](beast::error_code fault) {
            if (!fault) {
                self->read();
            }
        });
    }
};

static void accept(tcp::acceptor &acceptor) {
    acceptor.async_accept([&acceptor](beast::error_code fault, tcp::socket socket) {
        if (!fault) {
            std::make_shared<Guest>(std::move(socket))->serve();
        }
        accept(acceptor);
    });
}

int main(int count_of_words, char **words) {
    if (count_of_words != 2) {
        std::cerr << "beast_crowd ADDRESS\n";
        return 2;
    }
    const std::string address(words[1]);
    const auto colon = address.rfind(':');
    const auto port = static_cast<unsigned short>(std::atoi(address.c_str() + colon + 1));
    asio::io_context context(1);
    tcp::acceptor acceptor(context, {asio::ip::make_address(address.substr(0, colon)), port});
    std::cout << "listening on " << acceptor.local_endpoint() << std::endl;
    accept(acceptor);
    context.run();
    return 0;
}
