// Callers that ask an office for certificates, each for one after the other, and wait until each is signed. For
// bench/signed.
//
//	callers URL FOLDER CALLERS EACH FIRST KEY
//
// URL is that of a front, whose authority is FOLDER/ca.crt and whose callers' certificates are FOLDER/c1.pem and so on;
// or that of an office, with - as FOLDER. FIRST tells the requests of this run from those of others, and KEY is the
// public-key line that is certified. Each 16 callers have a department, d0 and so on. Prints for each certificate in how
// many microseconds the office had answered, and
// in how many the certificate was there; then how many microseconds all of them took.
package main

import (
	"bytes"
	"crypto/tls"
	"crypto/x509"
	"fmt"
	"io"
	"net/http"
	"os"
	"strconv"
	"strings"
	"sync"
	"time"
)

// How a client waits: the first pause, and by how much each is longer than the one before.
const (
	firstPause   = 30 * time.Millisecond
	longer       = 1.3
	longestPause = time.Second
	longestWait  = 2 * time.Minute
)

func must(fault error) {
	if fault != nil {
		fmt.Fprintln(os.Stderr, "callers:", fault)
		os.Exit(1)
	}
}

func number(text string) int {
	found, fault := strconv.Atoi(text)
	must(fault)
	return found
}

// client is what a caller asks by: for a front with its certificate.
func client(folder string, caller int) *http.Client {
	transport := &http.Transport{DisableKeepAlives: folder == "-"}
	if folder != "-" {
		file := fmt.Sprintf("%s/c%d.pem", folder, caller)
		own, fault := tls.LoadX509KeyPair(file, file)
		must(fault)
		authority, fault := os.ReadFile(folder + "/ca.crt")
		must(fault)
		trusted := x509.NewCertPool()
		trusted.AppendCertsFromPEM(authority)
		transport.TLSClientConfig = &tls.Config{Certificates: []tls.Certificate{own}, RootCAs: trusted}
	}
	return &http.Client{Transport: transport, Timeout: longestWait}
}

// answer is the status and the body of an answer. What the front has no room for is asked again.
func answer(by *http.Client, method, url string, body []byte) (int, string) {
	for {
		request, fault := http.NewRequest(method, url, bytes.NewReader(body))
		must(fault)
		came, fault := by.Do(request)
		must(fault)
		text, fault := io.ReadAll(came.Body)
		must(fault)
		came.Body.Close()
		if came.StatusCode != 429 && came.StatusCode < 500 {
			return came.StatusCode, string(text)
		}
		time.Sleep(time.Second)
	}
}

// one asks for a certificate. It returns when the office had answered, and when the certificate was there.
func one(by *http.Client, url, requests, name, message string) (time.Duration, time.Duration) {
	begun := time.Now()
	status, text := answer(by, "POST", url+requests+name, []byte(message))
	issued := time.Since(begun)
	if status != 200 {
		must(fmt.Errorf("%s: %d %s", name, status, text))
	}
	serial := strings.Fields(text)[1]
	for pause := firstPause; ; pause = time.Duration(longer * float64(pause)) {
		if pause > longestPause {
			pause = longestPause
		}
		time.Sleep(pause)
		if status, text = answer(by, "GET", url+"/v1/certs/"+serial, nil); status == 200 {
			return issued, time.Since(begun)
		}
		if status != 409 || time.Since(begun) > longestWait {
			must(fmt.Errorf("serial %s: %d %s", serial, status, text))
		}
	}
}

func main() {
	url, folder, callers, each, first, key := os.Args[1], os.Args[2], number(os.Args[3]), number(os.Args[4]),
		os.Args[5], os.Args[6]
	clients := make([]*http.Client, callers)
	for it := range clients {
		clients[it] = client(folder, it+1)
		// The connection is there before the clock runs.
		if folder != "-" {
			answer(clients[it], "GET", url+"/v1/cas", nil)
		}
	}
	var all sync.WaitGroup
	var lock sync.Mutex
	var lines strings.Builder
	now := time.Now().Unix()
	begun := time.Now()
	for it := range clients {
		all.Add(1)
		go func(caller int) {
			defer all.Done()
			requests := "/v1/requests/"
			if folder == "-" {
				requests = fmt.Sprintf("/v1/callers/c%d/requests/", caller)
			}
			for round := 0; round < each; round++ {
				name := fmt.Sprintf("%s-%d-%d", first, caller, round)
				of := fmt.Sprintf("d%d", (caller-1)/16)
				message := fmt.Sprintf("issue %s\nkeyid %s/%s\nkey %s\nprincipals alice\nafter %d\nbefore %d\nextensions\n",
					of, of, name, key, now-60, now+3600)
				issued, signed := one(clients[caller-1], url, requests, name, message)
				lock.Lock()
				fmt.Fprintln(&lines, issued.Microseconds(), signed.Microseconds())
				lock.Unlock()
			}
		}(it + 1)
	}
	all.Wait()
	fmt.Print(lines.String())
	fmt.Println(time.Since(begun).Microseconds())
}
