// A test client over nhooyr.io/websocket: client ws://HOST:PORT.
package main

import (
	"context"
	"fmt"
	"log"
	"os"
	"strconv"

	"nhooyr.io/websocket"
)

const limit = 16 * 1024 * 1024 // bytes of a message

func connect(path string) *websocket.Conn {
	options := websocket.DialOptions{CompressionMode: websocket.CompressionDisabled}
	connection, _, err := websocket.Dial(context.Background(), os.Args[1]+path, &options)
	if err != nil {
		log.Fatal(path, ": ", err)
	}
	connection.SetReadLimit(limit)
	return connection
}

func run(path string) {
	connection := connect(path)
	defer connection.Close(websocket.StatusNormalClosure, "")
	for {
		kind, message, err := connection.Read(context.Background())
		if err != nil {
			return
		}
		if err := connection.Write(context.Background(), kind, message); err != nil {
			return
		}
	}
}

func main() {
	connection := connect("/getCaseCount")
	_, message, err := connection.Read(context.Background())
	if err != nil {
		log.Fatal(err)
	}
	connection.Close(websocket.StatusNormalClosure, "")
	count, err := strconv.Atoi(string(message))
	if err != nil {
		log.Fatal(err)
	}
	for number := 1; number <= count; number++ {
		run(fmt.Sprintf("/runCase?case=%d", number))
	}
	run("/updateReports")
}
