// A chat over faye-websocket, which doesn't echo: application.js PORT. It greets, asks whether the other is there, and
// sends what comes to all, with a word before it.

const http = require("http");
const WebSocket = require("faye-websocket");

const LIMIT = 16 * 1024 * 1024; // bytes of a message

const server = http.createServer();
const members = new Set();

server.on("upgrade", (request, socket, body) => {
    const connection = new WebSocket(request, socket, body, [], { maxLength: LIMIT });
    connection.on("open", () => {
        members.add(connection);
        connection.send("welcome");
        connection.ping("there?");
    });
    connection.on("message", ({ data }) => {
        const isText = typeof data === "string";
        const told = isText ? `someone said ${data}` : Buffer.concat([Buffer.from("some bytes: "), data]);
        for (const member of members) member.send(told);
    });
    connection.on("close", () => members.delete(connection));
});

server.listen(Number(process.argv[2]), "127.0.0.1", () => console.log("listening"));
