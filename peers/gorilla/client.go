// A test client over gorilla/websocket: client ws://HOST:PORT.
package main

import (
	"fmt"
	"log"
	"os"
	"strconv"

	"github.com/gorilla/websocket"
)

const limit = 16 * 1024 * 1024 // bytes of a message

func connect(path string) *websocket.Conn {
	connection, _, err := websocket.DefaultDialer.Dial(os.Args[1]+path, nil)
	if err != nil {
		log.Fatal(path, ": ", err)
	}
	connection.SetReadLimit(limit)
	return connection
}

func run(path string) {
	connection := connect(path)
	defer connection.Close()
	for {
		kind, message, err := connection.ReadMessage()
		if err != nil {
			return
		}
		if err := connection.WriteMessage(kind, message); err != nil {
			return
		}
	}
}

func main() {
	connection := connect("/getCaseCount")
	_, message, err := connection.ReadMessage()
	if err != nil {
		log.Fatal(err)
	}
	connection.Close()
	count, err := strconv.Atoi(string(message))
	if err != nil {
		log.Fatal(err)
	}
	for number := 1; number <= count; number++ {
		run(fmt.Sprintf("/runCase?case=%d", number))
	}
	run("/updateReports")
}
