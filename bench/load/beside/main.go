// The server that `bench/load/run` measures beside `page_app serve`: the same page by Go's net/http and html/template.
//
//	beside DIR ADDR
//
// It makes its set of the files of DIR, answers GET /p/NAME with the page of a template and the data of the query, and
// POST /reload by reading the files again. A set whose files do not parse is not taken.
package main

import (
	"bytes"
	"fmt"
	"html/template"
	"net"
	"net/http"
	"os"
	"path/filepath"
	"strconv"
	"strings"
	"sync"
	"sync/atomic"
)

// A set of templates and its number.
type pages struct {
	templates *template.Template
	number    int
}

// The newest set, and the lock of those that make one.
type server struct {
	folder string
	newest atomic.Value
	making sync.Mutex
}

// Makes a set of the files, and takes it.
func (s *server) load() error {
	s.making.Lock()
	defer s.making.Unlock()
	templates, err := template.ParseGlob(filepath.Join(s.folder, "*"))
	if err != nil {
		return err
	}
	number := 1
	if now, is := s.newest.Load().(*pages); is {
		number = now.number + 1
	}
	s.newest.Store(&pages{templates, number})
	return nil
}

// Answers a request for a page. A template that cannot be escaped is found here, at its first execution.
func (s *server) page(w http.ResponseWriter, r *http.Request) {
	now := s.newest.Load().(*pages)
	data := map[string]string{}
	for name, values := range r.URL.Query() {
		data[name] = values[len(values)-1]
	}
	var body bytes.Buffer
	err := now.templates.ExecuteTemplate(&body, strings.TrimPrefix(r.URL.Path, "/p/"), data)
	if err != nil {
		http.Error(w, err.Error(), http.StatusInternalServerError)
		return
	}
	w.Header().Set("Content-Type", "text/html; charset=utf-8")
	w.Header().Set("Set-Number", strconv.Itoa(now.number))
	w.Write(body.Bytes())
}

// Answers a request for a reload.
func (s *server) reload(w http.ResponseWriter, r *http.Request) {
	if err := s.load(); err != nil {
		http.Error(w, err.Error(), http.StatusUnprocessableEntity)
		return
	}
	fmt.Fprintf(w, "set %d\n", s.newest.Load().(*pages).number)
}

func main() {
	if len(os.Args) != 3 {
		fmt.Fprintln(os.Stderr, "usage: beside DIR ADDR")
		os.Exit(2)
	}
	s := &server{folder: os.Args[1]}
	if err := s.load(); err != nil {
		fmt.Fprintln(os.Stderr, err)
		os.Exit(1)
	}
	http.HandleFunc("/p/", s.page)
	http.HandleFunc("/reload", s.reload)
	listener, err := net.Listen("tcp", os.Args[2])
	if err != nil {
		fmt.Fprintln(os.Stderr, err)
		os.Exit(1)
	}
	fmt.Fprintln(os.Stderr, "listening on", listener.Addr())
	fmt.Fprintln(os.Stderr, http.Serve(listener, nil))
	os.Exit(1)
}
