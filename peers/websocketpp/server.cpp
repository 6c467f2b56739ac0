// An echo server over websocketpp, on Boost.Asio: server PORT.
#include <iostream>
#include <websocketpp/config/asio_no_tls.hpp>
#include <websocketpp/server.hpp>

using Server = websocketpp::server<websocketpp::config::asio>;

const std::size_t limit = 16 * 1024 * 1024;  // bytes of a message

int main(int, char** words) {
    Server server;
    server.clear_access_channels(websocketpp::log::alevel::all);
    server.set_max_message_size(limit);
    server.set_reuse_addr(true);
    server.init_asio();
    server.set_message_handler([&](websocketpp::connection_hdl connection, Server::message_ptr message) {
        websocketpp::lib::error_code error;  // of a connection that has closed meanwhile
        server.send(connection, message->get_payload(), message->get_opcode(), error);
    });
    server.listen("127.0.0.1", words[1]);
    server.start_accept();
    std::cout << "listening" << std::endl;
    server.run();
}
