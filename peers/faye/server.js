// An echo server over faye-websocket: server.js PORT.

const http = require("http");
const WebSocket = require("faye-websocket");

const LIMIT = 16 * 1024 * 1024; // bytes of a message

const server = http.createServer();

server.on("upgrade", (request, socket, body) => {
    const connection = new WebSocket(request, socket, body, [], { maxLength: LIMIT });
    connection.on("message", (event) => connection.send(event.data));
});

server.listen(Number(process.argv[2]), "127.0.0.1", () => console.log("listening"));
