// A talker over Boost.Beast, a thread a connection, which doesn't echo: application PORT. It greets, asks whether the
// other is there, and answers each message with a word before it. It has no others: a stream of the library is for one
// thread.
#include <boost/asio.hpp>
#include <boost/beast/core.hpp>
#include <boost/beast/websocket.hpp>
#include <iostream>
#include <string>
#include <thread>
#include <utility>

namespace asio = boost::asio;
namespace beast = boost::beast;
using asio::ip::tcp;

const std::size_t limit = 16 * 1024 * 1024;  // bytes of a message

void talk(tcp::socket socket) {
    try {
        beast::websocket::stream<tcp::socket> connection{std::move(socket)};
        connection.read_message_max(limit);
        connection.accept();
        connection.write(asio::buffer(std::string{"welcome"}));
        connection.ping("there?");
        for (;;) {
            beast::flat_buffer buffer;
            connection.read(buffer);
            connection.text(connection.got_text());
            const std::string word = connection.got_text() ? "someone said " : "some bytes: ";
            connection.write(asio::buffer(word + beast::buffers_to_string(buffer.data())));
        }
    } catch (const beast::system_error& error) {
        if (error.code() != beast::websocket::error::closed) {
            std::cerr << "a connection ended: " << error.what() << std::endl;
        }
    }
}

int main(int, char** words) {
    asio::io_context context;
    const auto port = static_cast<unsigned short>(std::stoi(words[1]));
    tcp::acceptor acceptor{context, {asio::ip::make_address("127.0.0.1"), port}};
    std::cout << "listening" << std::endl;
    for (;;) {
        tcp::socket socket{context};
        acceptor.accept(socket);
        socket.set_option(tcp::no_delay(true));
        std::thread(talk, std::move(socket)).detach();
    }
}
