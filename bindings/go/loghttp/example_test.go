package loghttp_test

import (
	"context"
	"fmt"
	"log"
	"net/http/httptest"

	"vireoamalgam.example/slhdsa/loghttp"
)

func Example() {
	// A log of three releases on a web server of one's own; elsewhere it is any server, and the key
	// is read by slhdsa.ParsePKIXPublicKey.
	key := newKey()
	entries := []string{"release 1", "release 2", "release 3"}
	served := &server{files: folderOf(key, entries[:2])}
	web := httptest.NewServer(served)
	defer web.Close()

	ctx := context.Background()
	releases := loghttp.New(web.URL, origin, key.PublicKey(), web.Client())
	older, err := releases.Head(ctx)
	if err != nil {
		log.Fatal(err)
	}
	served.exchange(folderOf(key, entries))
	later, err := releases.Head(ctx)
	if err != nil {
		log.Fatal(err)
	}
	if err := releases.CheckGrowth(ctx, older, later); err != nil {
		log.Fatal(err)
	}
	if err := releases.CheckPresence(ctx, later, 2, []byte("release 3")); err != nil {
		log.Fatal(err)
	}
	fmt.Printf("grew from %d to %d, and release 3 is there\n", older.Size, later.Size)
	// Output: grew from 2 to 3, and release 3 is there
}
