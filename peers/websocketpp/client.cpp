// A test client over websocketpp, on Boost.Asio: client ws://HOST:PORT.
#include <iostream>
#include <string>
#include <websocketpp/client.hpp>
#include <websocketpp/config/asio_no_tls_client.hpp>

using Client = websocketpp::client<websocketpp::config::asio_client>;

const std::size_t limit = 16 * 1024 * 1024;  // bytes of a message
Client client;

// Tells each message to a function, until the connection ends.
template <class OnMessage>
void run(const std::string& address, OnMessage on_message) {
    websocketpp::lib::error_code error;
    const auto connection = client.get_connection(address, error);
    if (error) {
        std::cerr << address << ": " << error.message() << std::endl;
        return;
    }
    connection->set_message_handler(
        [&](websocketpp::connection_hdl, Client::message_ptr message) { on_message(*connection, message); });
    client.connect(connection);
    client.run();
    client.reset();
}

void echo(Client::connection_type& connection, Client::message_ptr message) {
    connection.send(message->get_payload(), message->get_opcode());
}

int main(int, char** words) {
    const std::string address = words[1];
    client.clear_access_channels(websocketpp::log::alevel::all);
    client.set_max_message_size(limit);
    client.init_asio();
    int count = 0;
    run(address + "/getCaseCount", [&](Client::connection_type&, Client::message_ptr message) {
        count = std::stoi(message->get_payload());
    });
    for (int number = 1; number <= count; ++number) run(address + "/runCase?case=" + std::to_string(number), echo);
    run(address + "/updateReports", echo);
}
