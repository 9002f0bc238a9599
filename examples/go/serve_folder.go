// Serves the files of a folder on a port of 127.0.0.1, prints the URL, and ends when its standard input
// does.
//
//	serve_folder FOLDER
package main

import (
	"fmt"
	"io"
	"log"
	"net"
	"net/http"
	"os"
)

func main() {
	log.SetFlags(0)
	if len(os.Args) != 2 {
		log.Fatal("usage: serve_folder FOLDER")
	}
	listener, err := net.Listen("tcp4", "127.0.0.1:0")
	if err != nil {
		log.Fatal(err)
	}
	fmt.Printf("http://%s\n", listener.Addr())
	go func() {
		log.Fatal(http.Serve(listener, http.FileServer(http.Dir(os.Args[1]))))
	}()
	if _, err := io.Copy(io.Discard, os.Stdin); err != nil {
		log.Fatal(err)
	}
}
