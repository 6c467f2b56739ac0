// An echo server over nhooyr.io/websocket: server PORT.
package main

import (
	"context"
	"fmt"
	"log"
	"net"
	"net/http"
	"os"

	"nhooyr.io/websocket"
)

const limit = 16 * 1024 * 1024 // bytes of a message

func echo(writer http.ResponseWriter, request *http.Request) {
	options := websocket.AcceptOptions{CompressionMode: websocket.CompressionDisabled}
	connection, err := websocket.Accept(writer, request, &options)
	if err != nil {
		return
	}
	defer connection.Close(websocket.StatusInternalError, "")
	connection.SetReadLimit(limit)
	for {
		kind, message, err := connection.Read(context.Background())
		if err != nil {
			return
		}
		if err := connection.Write(context.Background(), kind, message); err != nil {
			return
		}
	}
}

func main() {
	listener, err := net.Listen("tcp", "127.0.0.1:"+os.Args[1])
	if err != nil {
		log.Fatal(err)
	}
	fmt.Println("listening")
	log.Fatal(http.Serve(listener, http.HandlerFunc(echo)))
}
