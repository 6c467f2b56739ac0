// A test client over Boost.Beast: client ws://HOST:PORT.
#include <boost/asio.hpp>
#include <boost/beast/core.hpp>
#include <boost/beast/websocket.hpp>
#include <iostream>
#include <string>

namespace asio = boost::asio;
namespace beast = boost::beast;
using asio::ip::tcp;
using Connection = beast::websocket::stream<tcp::socket>;

const std::size_t limit = 16 * 1024 * 1024;  // bytes of a message
asio::io_context context;
std::string host, port;

void connect(Connection& connection, const std::string& path) {
    asio::connect(connection.next_layer(), tcp::resolver{context}.resolve(host, port));
    connection.next_layer().set_option(tcp::no_delay(true));
    connection.read_message_max(limit);
    connection.handshake(host + ":" + port, path);
}

int case_count() {
    Connection connection{context};
    connect(connection, "/getCaseCount");
    beast::flat_buffer buffer;
    connection.read(buffer);
    return std::stoi(beast::buffers_to_string(buffer.data()));
}

void run(const std::string& path) try {
    Connection connection{context};
    connect(connection, path);
    for (;;) {
        beast::flat_buffer buffer;
        connection.read(buffer);
        connection.text(connection.got_text());
        connection.write(buffer.data());
    }
} catch (const beast::system_error& error) {
    if (error.code() != beast::websocket::error::closed) std::cerr << path << " ended: " << error.what() << std::endl;
}

int main(int, char** words) {
    const std::string address = std::string(words[1]).substr(5);  // behind ws://
    host = address.substr(0, address.rfind(':'));
    port = address.substr(address.rfind(':') + 1);
    const int count = case_count();
    for (int number = 1; number <= count; ++number) run("/runCase?case=" + std::to_string(number));
    run("/updateReports");
}
