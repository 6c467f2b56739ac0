// A test client over ws: client.js ws://HOST:PORT.

const { WebSocket } = require("ws");

const LIMIT = 16 * 1024 * 1024; // bytes of a message

// Tells each message to a function, until the connection ends.
function connect(path, onMessage) {
    return new Promise((resolve) => {
        const connection = new WebSocket(process.argv[2] + path, { maxPayload: LIMIT, perMessageDeflate: false });
        connection.on("message", (data, isBinary) => onMessage(connection, data, isBinary));
        connection.on("error", (error) => console.error(`${path} ended: ${error.message}`));
        connection.on("close", resolve);
    });
}

function echo(connection, data, isBinary) {
    connection.send(data, { binary: isBinary });
}

async function main() {
    let count = 0;
    await connect("/getCaseCount", (_, data) => (count = Number(data.toString())));
    for (let number = 1; number <= count; number += 1) {
        await connect(`/runCase?case=${number}`, echo);
    }
    await connect("/updateReports", echo);
}

main();
