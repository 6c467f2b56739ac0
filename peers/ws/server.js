// An echo server over ws: server.js PORT.

const { WebSocketServer } = require("ws");

const LIMIT = 16 * 1024 * 1024; // bytes of a message

const server = new WebSocketServer({
    host: "127.0.0.1",
    port: Number(process.argv[2]),
    maxPayload: LIMIT,
    perMessageDeflate: false,
});

server.on("connection", (connection) => {
    connection.on("message", (data, isBinary) => connection.send(data, { binary: isBinary }));
    connection.on("error", (error) => console.error(`a connection ended: ${error.message}`));
});

server.on("listening", () => console.log("listening"));
