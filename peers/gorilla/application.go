// A chat over gorilla/websocket, which doesn't echo: application PORT. It greets, asks whether the other is there, and
// sends what comes to all, with a word before it.
package main

import (
	"fmt"
	"log"
	"net"
	"net/http"
	"os"
	"sync"
	"time"

	"github.com/gorilla/websocket"
)

const limit = 16 * 1024 * 1024 // bytes of a message

var upgrader = websocket.Upgrader{EnableCompression: false}

var members = map[*websocket.Conn]bool{}
var turn sync.Mutex // whoever sends a message has it

func greet(connection *websocket.Conn) {
	turn.Lock()
	defer turn.Unlock()
	members[connection] = true
	connection.WriteMessage(websocket.TextMessage, []byte("welcome"))
	connection.WriteControl(websocket.PingMessage, []byte("there?"), time.Now().Add(time.Second))
}

func leave(connection *websocket.Conn) {
	turn.Lock()
	defer turn.Unlock()
	delete(members, connection)
	connection.Close()
}

func tellAll(kind int, message []byte) {
	word := "some bytes: "
	if kind == websocket.TextMessage {
		word = "someone said "
	}
	told := append([]byte(word), message...)
	turn.Lock()
	defer turn.Unlock()
	for member := range members {
		member.WriteMessage(kind, told) // to one that has gone it does nothing
	}
}

func chat(writer http.ResponseWriter, request *http.Request) {
	connection, err := upgrader.Upgrade(writer, request, nil)
	if err != nil {
		return
	}
	defer leave(connection)
	connection.SetReadLimit(limit)
	greet(connection)
	for {
		kind, message, err := connection.ReadMessage()
		if err != nil {
			return
		}
		tellAll(kind, message)
	}
}

func main() {
	listener, err := net.Listen("tcp", "127.0.0.1:"+os.Args[1])
	if err != nil {
		log.Fatal(err)
	}
	fmt.Println("listening")
	log.Fatal(http.Serve(listener, http.HandlerFunc(chat)))
}
