// An echo of WebSocket messages over Boost.Beast, for `bench/serve --beast` to measure beside `wst serve`. It reads and
// writes by the library's own calls, which wait, and takes connections one after the other.
//
//     beast_server ADDRESS COUNT
#include <boost/asio/ip/tcp.hpp>
#include <boost/beast/core.hpp>
#include <boost/beast/websocket.hpp>
#include <cstdlib>
#include <iostream>
#include <string>

namespace asio = boost::asio;
namespace beast = boost::beast;
using boost::asio::ip::tcp;

// Serves one connection to its end.
static void serve(tcp::socket socket) {
    socket.set_option(tcp::no_delay(true));
    beast::websocket::stream<tcp::socket> stream(std::move(socket));
    // A message is sent as one frame, as it came.
    stream.auto_fragment(false);
    stream.accept();
    beast::flat_buffer buffer;
    for (;;) {
        beast::error_code fault;
        stream.read(buffer, fault);
        if (fault == beast::websocket::error::closed) {
            return;
        }
        if (fault) {
            throw beast::system_error(fault);
        }
        stream.text(stream.got_text());
        stream.write(buffer.data());
        buffer.clear();
    }
}

int main(int count_of_words, char **words) {
    if (count_of_words != 3) {
        std::cerr << "beast_server ADDRESS COUNT\n";
        return 2;
    }
    const std::string address(words[1]);
    const auto colon = address.rfind(':');
    const auto port = static_cast<unsigned short>(std::atoi(address.c_str() + colon + 1));
    asio::io_context context(1);
    tcp::acceptor acceptor(context, {asio::ip::make_address(address.substr(0, colon)), port});
    std::cout << "listening on " << acceptor.local_endpoint() << std::endl;
    for (int left = std::atoi(words[2]); left > 0; left--) {
        tcp::socket socket(context);
        acceptor.accept(socket);
        serve(std::move(socket));
    }
    return 0;
}
