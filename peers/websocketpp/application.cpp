// A chat over websocketpp, on Boost.Asio, which doesn't echo: application PORT. It greets, asks whether the other is
// there, and sends what comes to all, with a word before it.
#include <iostream>
#include <memory>
#include <set>
#include <string>
#include <websocketpp/config/asio_no_tls.hpp>
#include <websocketpp/server.hpp>

using Server = websocketpp::server<websocketpp::config::asio>;
using Connection = websocketpp::connection_hdl;

const std::size_t limit = 16 * 1024 * 1024;  // bytes of a message

int main(int, char** words) {
    Server server;
    std::set<Connection, std::owner_less<Connection>> members;
    websocketpp::lib::error_code error;  // of a connection that has closed meanwhile
    server.clear_access_channels(websocketpp::log::alevel::all);
    server.set_max_message_size(limit);
    server.set_reuse_addr(true);
    server.init_asio();
    server.set_open_handler([&](Connection connection) {
        members.insert(connection);
        server.send(connection, "welcome", websocketpp::frame::opcode::text, error);
        server.ping(connection, "there?", error);
    });
    server.set_close_handler([&](Connection connection) { members.erase(connection); });
    server.set_message_handler([&](Connection, Server::message_ptr message) {
        const bool is_text = message->get_opcode() == websocketpp::frame::opcode::text;
        const std::string told = (is_text ? "someone said " : "some bytes: ") + message->get_payload();
        for (const Connection& member : members) {
            server.send(member, told, message->get_opcode(), error);
        }
    });
    server.listen("127.0.0.1", words[1]);
    server.start_accept();
    std::cout << "listening" << std::endl;
    server.run();
}
