// A chat over ws, which doesn't echo: application.js PORT. It greets, asks whether the other is there, and sends what
// comes to all, with a word before it.

const { WebSocket, WebSocketServer } = require("ws");

const LIMIT = 16 * 1024 * 1024; // bytes of a message

const server = new WebSocketServer({
    host: "127.0.0.1",
    port: Number(process.argv[2]),
    maxPayload: LIMIT,
    perMessageDeflate: false,
});

server.on("connection", (connection) => {
    connection.send("welcome");
    connection.ping("there?");
    connection.on("message", (data, isBinary) => {
        const told = Buffer.concat([Buffer.from(isBinary ? "some bytes: " : "someone said "), data]);
        for (const member of server.clients) {
            if (member.readyState === WebSocket.OPEN) member.send(told, { binary: isBinary });
        }
    });
    connection.on("error", (error) => console.error(`a connection ended: ${error.message}`));
});

server.on("listening", () => console.log("listening"));
