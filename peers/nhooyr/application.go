// A chat over nhooyr.io/websocket, which doesn't echo: application PORT. It greets, asks whether the other is there, and
// sends what comes to all, with a word before it.
package main

import (
	"context"
	"fmt"
	"log"
	"net"
	"net/http"
	"os"
	"sync"

	"nhooyr.io/websocket"
)

const limit = 16 * 1024 * 1024 // bytes of a message

var members sync.Map // of connections

func tellAll(kind websocket.MessageType, message []byte) {
	word := "some bytes: "
	if kind == websocket.MessageText {
		word = "someone said "
	}
	told := append([]byte(word), message...)
	members.Range(func(member, _ any) bool {
		member.(*websocket.Conn).Write(context.Background(), kind, told) // to one that has gone it does nothing
		return true
	})
}

func chat(writer http.ResponseWriter, request *http.Request) {
	options := websocket.AcceptOptions{CompressionMode: websocket.CompressionDisabled}
	connection, err := websocket.Accept(writer, request, &options)
	if err != nil {
		return
	}
	defer connection.Close(websocket.StatusInternalError, "")
	connection.SetReadLimit(limit)
	connection.Write(context.Background(), websocket.MessageText, []byte("welcome"))
	go connection.Ping(request.Context()) // it waits for the pong
	members.Store(connection, true)
	defer members.Delete(connection)
	for {
		kind, message, err := connection.Read(context.Background())
		if err != nil {
			return
		}
		tellAll(kind, message)
	}
}

func main() {
	listener, err := net.Listen("tcp", "127.0.0.1:"+os.Args[1])
	if err != nil {
		log.Fatal(err)
	}
	fmt.Println("listening")
	log.Fatal(http.Serve(listener, http.HandlerFunc(chat)))
}
