// A test client over faye-websocket: client.js ws://HOST:PORT.

const WebSocket = require("faye-websocket");

const LIMIT = 16 * 1024 * 1024; // bytes of a message

// Tells each message to a function, until the connection ends.
function connect(path, onMessage) {
    return new Promise((resolve) => {
        const connection = new WebSocket.Client(process.argv[2] + path, [], { maxLength: LIMIT });
        connection.on("message", (event) => onMessage(connection, event.data));
        connection.on("error", (event) => console.error(`${path} ended: ${event.message}`));
        connection.on("close", resolve);
    });
}

function echo(connection, data) {
    connection.send(data);
}

async function main() {
    let count = 0;
    await connect("/getCaseCount", (_, data) => (count = Number(data)));
    for (let number = 1; number <= count; number += 1) {
        await connect(`/runCase?case=${number}`, echo);
    }
    await connect("/updateReports", echo);
}

main();
